#!/usr/bin/env bash
# The Python package and the command `bay`: types, tests, and the wheel, built anew and used where it is installed. Takes
# Debian's python3 and what it needs beside it.
set -euo pipefail
cd -- "$(dirname -- "$(readlink -f -- "$0")")/.."

python=/usr/bin/python3
work=$(mktemp -d)
trap 'rm -rf "$work"' EXIT

packages=(mypy python3-numpy python3-setuptools python3-venv python3-wheel)
missing() {
    local package
    for package in "${packages[@]}"; do
        [ "$(dpkg-query -W -f '${db:Status-Status}' "$package" 2>/dev/null)" = installed ] || echo "$package"
    done
}
install_missing() {
    # shellcheck disable=SC2046  # a word each
    DEBIAN_FRONTEND=noninteractive apt-get install -qq -y --no-install-recommends $(missing) >"$work/apt" 2>&1
}
if [ -n "$(missing)" ]; then
    install_missing || { sleep 10; apt-get update -qq >/dev/null 2>&1; install_missing; } || true
    [ -z "$(missing)" ] || { echo "not installed, and apt-get could not: $(missing | xargs)" >&2; exit 1; }
fi

echo 'types'
(cd python && mypy --cache-dir="$work/mypy")

echo 'tests'
cargo build --offline --locked --quiet --release --manifest-path rust/Cargo.toml -p reference --bin answers
BAY_MARKET_ANSWERS=$(readlink -f -- "${CARGO_TARGET_DIR:-rust/target}")/release/answers
export BAY_MARKET_ANSWERS
status=0
(cd python && $python -W always::ResourceWarning -m unittest discover -q -s tests -t .) >"$work/said" 2>&1 || status=$?
cat "$work/said"
[ $status = 0 ] || exit $status
# a file that is not closed is told as a warning alone
if grep 'ResourceWarning' "$work/said"; then
    echo 'something is not closed, see above' >&2
    exit 1
fi

echo 'the wheel: built twice with the same bytes, as the shipped one'
mkdir "$work/one" "$work/two"
scripts/wheel "$work/one"
(umask 077 && scripts/wheel "$work/two")
cmp "$work"/one/*.whl "$work"/two/*.whl
tools/wheel.py prebuilt/bay_market-*.whl "$work"/one/*.whl

echo 'the wheel, installed'
$python -m venv "$work/venv"
"$work/venv/bin/pip" install --quiet --no-index --disable-pip-version-check prebuilt/bay_market-*.whl
cat >"$work/user.py" <<'END'
"""A user's program, typed."""
from pathlib import Path

import bay_market


def cut(sheet: Path) -> int:
    """Its cut, after a posting."""
    market = bay_market.Market.from_bytes(sheet.read_bytes())
    book = bay_market.Ledger()
    book.post(market, 1, desk=7)
    return bay_market.clear(market).cut


assert Path(bay_market.__file__).with_name('libbay_market.so').exists()
print(cut(Path('examples/case_e.sheet')))
END
[ "$(env -i "$work/venv/bin/python" "$work/user.py")" = 6 ]
mypy --strict --cache-dir="$work/mypy" --python-executable "$work/venv/bin/python" "$work/user.py"
env -i "$work/venv/bin/bay" clear examples/table_i.sheet | cmp - examples/table_i.txt
env -i "$work/venv/bin/python" -m bay_market clear examples/table_i.sheet | cmp - examples/table_i.txt
env -i "$work/venv/bin/bay" course run examples/course/honest.py --rounds 2 --limit 60 | grep -q '^honest  *2 '
"$work/venv/bin/pip" uninstall --quiet --yes --disable-pip-version-check bay_market
[ ! -e "$work/venv/bin/bay" ]
