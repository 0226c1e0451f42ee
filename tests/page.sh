#!/usr/bin/env bash
# tests/page.sh [WORDS]: the page, built anew and compared with prebuilt/bay.html, and its tests (web/tests), or those
# whose names have the words, in Debian's Chromium and Firefox. What is not installed is fetched from Debian's packages,
# with a second try. Without Chromium nothing is tested, without Firefox its part is not: one line says so, and under CI
# it is a failure.
set -euo pipefail
cd -- "$(dirname -- "$(readlink -f -- "$0")")/.."

work=$(mktemp -d)
trap 'rm -rf "$work"' EXIT

# what is not there, by the package that has it
wanted() {
    command -v node >/dev/null || echo nodejs
    command -v chromium-headless-shell >/dev/null || command -v chromium >/dev/null || echo chromium-headless-shell
    command -v firefox-esr >/dev/null || command -v firefox >/dev/null || echo firefox-esr
    [ -e /usr/share/fonts/truetype/dejavu/DejaVuSansCondensed.ttf ] || echo fonts-dejavu-core fonts-dejavu-extra
}
fetch() {
    local packages
    mapfile -t packages < <(wanted | xargs -rn 1)
    [ ${#packages[@]} -gt 0 ] || return 0
    echo "from Debian's packages: ${packages[*]}"
    { apt-get update -qq && DEBIAN_FRONTEND=noninteractive apt-get install -qq -y --no-install-recommends \
        -o DPkg::Lock::Timeout=300 "${packages[@]}"; } >"$work/apt" 2>&1
}
fetch || { sleep 20 && fetch; } || tail -n 3 "$work/apt" >&2
missing=$(wanted | xargs)
if [ -n "$missing" ]; then
    echo "not installed, and not to be had from Debian's packages: $missing" >&2
    [ -z "${CI-}" ] || exit 1
    case $missing in *nodejs* | *chromium*) echo 'so the page is not tested'; exit ;; esac
fi
timeout 600 node web/tests/run.mjs "$@"
