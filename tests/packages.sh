#!/usr/bin/env bash
# scripts/package, twice with the same bytes, and what each package has, unpacked and used: the tars and Debian packages
# by the C test and by the program, those of AArch64 under qemu; the Debian package of this machine, installed by dpkg
# into a scratch root, by the examples; scripts/install by CMake, and taken away again; the JavaScript one by its name.
# Needs what tests/targets.sh fetches, and cmake, which it fetches itself.
set -euo pipefail
cd -- "$(dirname -- "$(readlink -f -- "$0")")/.."

packages=$PWD/target/packages
cross=/usr/aarch64-linux-gnu
tools="$(dirname -- "$(rt doc)")/toolchain/bin"
work=$(mktemp -d)
trap 'rm -rf "$work"' EXIT
version=$(sed -n 's/^#define BAY_MARKET_VERSION "\(.*\)"$/\1/p' include/bay_market.h)

fail() {
    echo "packages: $1" >&2
    exit 1
}

scripts/package
cp "$packages/SHA256SUMS" "$work/first"
(umask 077 && scripts/package)
cmp "$work/first" "$packages/SHA256SUMS"
(cd "$packages" && sha256sum --quiet --check SHA256SUMS)

# PREFIX LIB: the C test over the shared library there, found as its pkg-config file says, and the program
use_x86_64() {
    local root words
    grep -qx "Version: $version" "$2/pkgconfig/bay_market.pc"
    root=$(sed -n "s,^prefix=\${pcfiledir},$2/pkgconfig,p" "$2/pkgconfig/bay_market.pc")
    words=$(sed -n -e "s,\${prefix},$root,g" -e 's/^\(Cflags\|Libs\): //p' "$2/pkgconfig/bay_market.pc" | xargs)
    # shellcheck disable=SC2086  # words
    gcc -std=c11 tests/c/bay_market_test.c $words -o "$work/test"
    LD_LIBRARY_PATH=$2 "$work/test" >/dev/null
    LD_LIBRARY_PATH=$2 LD_TRACE_LOADED_OBJECTS=1 "$work/test" | grep -qF "$2/"
    gcc -std=c11 -I"$1/include" tests/c/bay_market_test.c "$2/libbay_market.a" -o "$work/test"
    "$work/test" >/dev/null
    "$1/bin/bay-clear" examples/case_e.sheet | cmp - examples/case_e.txt
    ls "$2"/glibc-hwcaps/x86-64-v3/libbay_market.so.* "$1/share/bay_market/bay_market-$version"-*.whl >/dev/null
}

# PREFIX LIB
use_aarch64() {
    "$tools/clang" --no-default-config --target=aarch64-linux-gnu -nostdinc -isystem "$(gcc -print-file-name=include)" \
        -isystem $cross/include -I"$1/include" -std=gnu11 -fPIE -c tests/c/bay_market_test.c -o "$work/test.o"
    "$tools/ld.lld" -m aarch64linux -pie --dynamic-linker /lib/ld-linux-aarch64.so.1 $cross/lib/Scrt1.o \
        $cross/lib/crti.o "$work/test.o" "$2/libbay_market.so" $cross/lib/libc.so.6 $cross/lib/libc_nonshared.a \
        $cross/lib/ld-linux-aarch64.so.1 $cross/lib/crtn.o -o "$work/test"
    qemu-aarch64 -L $cross -E LD_LIBRARY_PATH="$2" "$work/test" >/dev/null
    qemu-aarch64 "$1/libexec/bay_market/clear" <examples/case_e.sheet | cmp - examples/case_e.txt
    [ ! -e "$2/glibc-hwcaps" ]
    cmp "$1/lib/python3/dist-packages/bay_market/libbay_market.so" "$2/libbay_market.so"
}

while read -r machine architecture; do
    tar -C "$work" -xzf "$packages/bay_market-$version-$machine-linux.tar.gz"
    prefix=$work/bay_market-$version-$machine-linux
    "use_$machine" "$prefix" "$prefix/lib"
    deb=$packages/bay-market_${version}_$architecture.deb
    [ "$(dpkg-deb -f "$deb" Architecture Version | xargs)" = "Architecture: $architecture Version: $version" ]
    dpkg-deb -x "$deb" "$work/$architecture"
    "use_$machine" "$work/$architecture/usr" "$work/$architecture/usr/lib/$machine-linux-gnu"
done <<'END'
x86_64 amd64
aarch64 arm64
END

# the Debian package, by dpkg, in a root of its own
root=$work/root
mkdir -p "$root/var/lib/dpkg"/{info,updates,triggers}
: >"$root/var/lib/dpkg/status"
in_root() {
    dpkg --root="$root" --force-depends --force-script-chrootless --log="$work/dpkg.log" "$@" >"$work/said" 2>&1 ||
        { cat "$work/said" >&2; fail "dpkg $*"; }
}
in_root -i "$packages/bay-market_${version}_amd64.deb"
lib=$root/usr/lib/x86_64-linux-gnu
examples=$root/usr/share/doc/bay-market/examples
evening=$examples/evening.sheet
cmp "$evening" examples/evening.sheet
if grep -rlF -e "$PWD" "$root/usr"; then fail "a file names $PWD"; fi
gcc -std=c11 -I"$root/usr/include" "$examples/one_guest.c" -L"$lib" -lbay_market -o "$work/in_c"
g++ -std=c++20 -I"$root/usr/include" "$examples/one_guest.cpp" -L"$lib" -lbay_market -o "$work/in_cpp"
# NAME COMMAND..: away from the sources, and with nothing of this environment, the example prints examples/NAME.txt
says() {
    local name=$1
    shift
    (cd "$root" && env -i PATH="$root/usr/bin:/usr/bin:/bin" LD_LIBRARY_PATH="$lib" "$@" "$evening" 24) |
        cmp - "examples/$name.txt" || fail "$*"
}
says one_guest "$work/in_c"
says one_guest "$work/in_cpp"
says one_guest env PYTHONPATH="$root/usr/lib/python3/dist-packages" /usr/bin/python3 "$examples/one_guest.py"
says one_guest "$(command -v node)" "$examples/one_guest.mjs"
says one_guest_in_shell "$examples/one_guest.sh"
BAY_MARKET_LIB_DIR=$lib cargo run --offline --locked --quiet --release --manifest-path rust/Cargo.toml \
    --example one_guest -- "$evening" 24 | cmp - examples/one_guest.txt
[ "$("$root/usr/bin/bay" --version)" = "bay $version" ]
"$root/usr/bin/bay" clear "$examples/table_i.sheet" | cmp - examples/table_i.txt
grep -q '^Permission is hereby granted' "$root/usr/share/doc/bay-market/copyright"
in_root -r bay-market
[ ! -e "$root/usr" ] || fail "left after dpkg -r: $(find "$root/usr" | head -n 3 | xargs)"

# scripts/install with DESTDIR into folders that have files of others
to=$work/dest/opt/bay
mkdir -p "$to"/{bin,lib/python3/dist-packages,share/man/man1}
echo mine | tee "$to/bin/mine" "$to/lib/python3/dist-packages/mine.py" "$to/share/man/man1/mine.1" >/dev/null
find "$work/dest" | sort >"$work/before"
DESTDIR=$work/dest scripts/install /opt/bay >/dev/null
soname=$(scripts/soname)
cmp "$to/lib/glibc-hwcaps/x86-64-v3/$soname" "$(scripts/current x86_64-v3)/libbay_market.so"
cmp "$to/lib/$soname" "$(scripts/current)/libbay_market.so"
cmp "$to/lib/python3/dist-packages/bay_market/libbay_market.so" "$to/lib/$soname"
cmp "$to/share/doc/bay-market/bay.html" prebuilt/bay.html
for page in bay bay-clear; do
    gzip -dc "$to/share/man/man1/$page.1.gz" | grep -qF "bay_market $version"
done
# STATUS PATTERN WORDS..: the installed command ends so and says so, away from the sources
expect() {
    local status=0
    (cd / && "$to/bin/bay-clear" "${@:3}") >"$work/out" 2>"$work/err" </dev/null || status=$?
    if [ "$status" != "$1" ] || ! grep -q -- "$2" "$work/out" "$work/err"; then fail "bay-clear ${*:3}: $status"; fi
}
expect 0 '^usage: bay-clear' --help
expect 0 '^margin 6$' "$PWD/examples/case_e.sheet"
expect 0 '^margin 1200$' --csv "$PWD/examples/fleet.csv"
expect 1 '^refused 6$' "$PWD/examples/refused.sheet"
expect 2 '^bay-clear: no such option: -x (bay-clear --help)$' -x
mv "$to/libexec" "$to/elsewhere"
expect 3 '^bay-clear: the program is not there: ' "$PWD/examples/case_e.sheet"
mv "$to/elsewhere" "$to/libexec"

# CMake finds both libraries there, and none for a version that is not there
fetch_cmake() {
    DEBIAN_FRONTEND=noninteractive apt-get install -qq -y --no-install-recommends cmake >"$work/said" 2>&1
}
if ! command -v cmake >/dev/null; then
    fetch_cmake || { sleep 10; apt-get update -qq >/dev/null 2>&1; fetch_cmake; } || true
fi
if ! command -v cmake >/dev/null; then
    echo 'not installed, and apt-get could not, so that its package file is not tried: cmake'
    [ -z "${CI:-}" ] || exit 1
else
    mkdir "$work/cmake"
    cp examples/one_guest.c "$work/cmake"
    cat >"$work/cmake/CMakeLists.txt" <<END
cmake_minimum_required(VERSION 3.16)
project(user C)
find_package(bay_market ${version%%.*} REQUIRED)
add_executable(shared one_guest.c)
target_link_libraries(shared bay_market::bay_market)
add_executable(static one_guest.c)
target_link_libraries(static bay_market::static)
END
    make_it() {
        cmake -S "$work/cmake" -B "$work/cmake/$1" -DCMAKE_PREFIX_PATH="$to" && cmake --build "$work/cmake/$1"
    }
    make_it out >"$work/said" 2>&1 || { cat "$work/said" >&2; fail 'CMake'; }
    for kind in shared static; do
        "$work/cmake/out/$kind" examples/evening.sheet 24 | cmp - examples/one_guest.txt
    done
    sed -i 's/find_package(bay_market [0-9]*/find_package(bay_market 99/' "$work/cmake/CMakeLists.txt"
    if make_it later >"$work/said" 2>&1; then fail 'CMake takes this version for version 99'; fi
    grep -q 'version: ' "$work/said"
fi

# what was there before stays, and nothing else: what Python compiled goes too
use_bay() {
    env -u PYTHONDONTWRITEBYTECODE "$to/bin/bay" clear examples/table_i.sheet | cmp - examples/table_i.txt
    [ -d "$to/lib/python3/dist-packages/bay_market/__pycache__" ]
}
use_bay
DESTDIR=$work/dest scripts/install /opt/bay >/dev/null # over itself
use_bay
DESTDIR=$work/dest scripts/install --remove /opt/bay >/dev/null
find "$work/dest" | sort | diff "$work/before" - || fail 'scripts/install --remove'
# MESSAGE WORDS..: scripts/install refuses, and what was there stays
refused() {
    if scripts/install "${@:2}" >"$work/out" 2>"$work/err"; then fail "not refused: scripts/install ${*:2}"; fi
    grep -q "^scripts/install: $1" "$work/err" || { cat "$work/err" >&2; fail "scripts/install ${*:2}"; }
}
refused 'nothing was installed there: ' --remove "$to"
refused 'a checkout is no PREFIX: ' "$PWD"
refused 'a checkout is no PREFIX: ' --remove .
echo mine >"$to/bin/bay"
refused "there is a file of somebody else's: $to/bin/bay" "$to"
rm "$to/bin/bay"
find "$work/dest" | sort | diff "$work/before" - || fail 'a refused scripts/install'

mkdir -p "$work/user/node_modules"
tar -C "$work/user/node_modules" -xzf "$packages/bay-market-$version.tgz"
mv "$work/user/node_modules/package" "$work/user/node_modules/bay-market"
cat >"$work/user/use.mjs" <<'END'
import { readFileSync } from 'node:fs';
import { load } from 'bay-market';

const { cut, margin } = (await load()).fromSheet(readFileSync(process.argv[2])).clear();
console.log(`cut ${cut} margin ${margin}`);
END
[ "$(node "$work/user/use.mjs" examples/case_e.sheet)" = 'cut 6 margin 6' ]
echo "packages: $(wc -l <"$work/first") the same twice, unpacked, installed and used"
