#!/usr/bin/env bash
# The engine for other machines, built anew (scripts/targets) and compared with prebuilt/, and held to x86-64 on the
# same random calls: x86-64-v3 where the processor has it, AArch64 under qemu-user, wasm32 in Node, Chromium and jsc,
# which is Safari's engine; the C tests on each, the JavaScript module, the packages. Takes the folder with the
# libraries of x86-64. TARGETS_CALLS and TARGETS_SEED say which calls. What is not installed is fetched from Debian's
# packages.
set -euo pipefail
cd -- "$(dirname -- "$(readlink -f -- "$0")")/.."

plain=$(readlink -f -- "$1")
calls=${TARGETS_CALLS-60000}
seed=${TARGETS_SEED-1}
made=$PWD/target/targets
soname=$(scripts/soname)
tools="$(dirname -- "$(rt doc)")/toolchain/bin"
cross=/usr/aarch64-linux-gnu
work=$(mktemp -d)
trap 'rm -rf "$work"' EXIT
mkdir "$work/x86_64" "$work/aarch64"

# what is not there, by the package that has it
wanted() {
    command -v node >/dev/null || echo nodejs
    command -v qemu-aarch64 >/dev/null || echo qemu-user
    [ -f $cross/lib/Scrt1.o ] || echo libc6-dev-arm64-cross
    command -v chromium-headless-shell >/dev/null || command -v chromium >/dev/null || echo chromium-headless-shell
    command -v jsc >/dev/null || echo libjavascriptcoregtk-4.0-bin
    command -v dpkg-deb >/dev/null || echo dpkg
}
fetch() {
    local packages
    mapfile -t packages < <(wanted)
    [ ${#packages[@]} -gt 0 ] || return 0
    echo "from Debian's packages: ${packages[*]}"
    { apt-get update -qq && DEBIAN_FRONTEND=noninteractive apt-get install -qq -y --no-install-recommends \
        -o DPkg::Lock::Timeout=60 "${packages[@]}"; } >"$work/apt" 2>&1
}
fetch || { sleep 20 && fetch; } || tail -n 3 "$work/apt" >&2
missing=$(wanted | xargs)
[ -z "$missing" ] || { echo "not installed, and not to be had from Debian's packages: $missing" >&2; exit 1; }

tests/targets/fits32_test.py
scripts/targets
for folder in "$made"/*/; do
    name=$(basename "$folder")
    cmp "$folder/SOURCES.sha256" "prebuilt/$name/SOURCES.sha256"
    cmp "$folder/SHA256SUMS" "prebuilt/$name/SHA256SUMS"
    (cd "prebuilt/$name" && sha256sum --quiet --check SHA256SUMS)
    echo "$name: as prebuilt"
done

# NAME: the lines of its calls are those of x86-64
same() {
    if ! cmp -s "$work/calls" "$work/calls.$1"; then
        echo "$1: not as x86-64" >&2
        diff "$work/calls" "$work/calls.$1" | head -n 4 >&2
        exit 1
    fi
    echo "$1: $calls calls as x86-64"
}
strict=(-std=gnu11 -O1 -Wall -Wextra -Werror -Iinclude)
programs='c/bay_market_test c/tables_test c/stack_test targets/calls'

# the header on a machine that has no library
if echo '#include "bay_market.h"' | gcc -m32 -ffreestanding -fsyntax-only -Iinclude -x c - 2>"$work/said"; then
    echo 'the header is taken for 32 bits' >&2
    exit 1
fi
grep -q 'libbay_market is made for x86-64 and little-endian AArch64 Linux' "$work/said"

# x86-64: every function, with every refusal that the header says of it
gcc "${strict[@]}" tests/targets/calls.c "$plain/libbay_market.a" -o "$work/x86_64/calls"
"$work/x86_64/calls" "$seed" "$calls" >"$work/calls"
market='0 2 5 6 7 8 9 15'
cat >"$work/answers" <<END
clear $market 10 18
clear_efficient $market 10 18
clear_marked $market 10 18
mark $market 10 18
explain $market 10 18
try $market 10 18 24
menu $market 10 18 24
gains $market 10 18 24
join $market 10 20 21
write $market 14
read 0 1 2 3 4 10 19
read_csv 0 2 10 22 23
place_bids 0 2 5 16 17
post $market 11 12 13 18 25
END
while read -r name answers; do
    for answer in $answers; do
        grep -q "^[0-9]* $name $answer " "$work/calls" || { echo "no call of $name answers $answer" >&2; exit 1; }
    done
done <"$work/answers"
[ "$(cut -d ' ' -f 1 "$work/answers" | sort)" = "$(scripts/exports --names | xargs -n 1 | sort)" ]

# x86-64-v3: the loader takes it by itself where the processor has it
lib=$work/lib
mkdir -p "$lib/glibc-hwcaps/x86-64-v3"
cp "$plain/libbay_market.so" "$lib/$soname"
ln -s "$soname" "$lib/libbay_market.so"
cp "$made/x86_64-v3-linux/libbay_market.so" "$lib/glibc-hwcaps/x86-64-v3/$soname"
symbols() { nm -D "$1" | awk '{ print $(NF - 1), $NF }' | sort; }
[ "$(symbols "$made/x86_64-v3-linux/libbay_market.so")" = "$(symbols "$plain/libbay_market.so")" ]
if /lib64/ld-linux-x86-64.so.2 --help | grep -q 'x86-64-v3 (supported'; then
    for program in $programs; do
        gcc "${strict[@]}" "tests/$program.c" -L"$lib" -lbay_market -o "$work/x86_64/${program##*/}"
    done
    export LD_LIBRARY_PATH=$lib
    LD_TRACE_LOADED_OBJECTS=1 "$work/x86_64/calls" | grep -qF "$lib/glibc-hwcaps/x86-64-v3/$soname"
    GLIBC_TUNABLES=glibc.cpu.hwcaps=-AVX2 LD_TRACE_LOADED_OBJECTS=1 "$work/x86_64/calls" | grep -qF "$lib/$soname"
    "$work/x86_64/bay_market_test"
    "$work/x86_64/tables_test"
    "$work/x86_64/stack_test"
    "$work/x86_64/calls" "$seed" "$calls" >"$work/calls.x86_64-v3"
    unset LD_LIBRARY_PATH
    same x86_64-v3
else
    echo 'x86_64-v3: this processor has it not, so that it is compared with prebuilt/ alone'
fi

# AArch64 under qemu: by the archive and by the shared library, and the program
emulated() { qemu-aarch64 -L $cross -E LD_LIBRARY_PATH="$work/aarch64" "$@"; }
cp "$made/aarch64-linux/libbay_market.a" "$work/aarch64/static"
cp "$made/aarch64-linux/libbay_market.so" "$work/aarch64/$soname"
ln -s "$soname" "$work/aarch64/shared"
[ "$(symbols "$work/aarch64/shared")" = "$(symbols "$plain/libbay_market.so")" ]
for program in $programs; do
    "$tools/clang" --no-default-config --target=aarch64-linux-gnu -nostdinc -isystem "$(gcc -print-file-name=include)" \
        -isystem $cross/include "${strict[@]}" -fPIE -c "tests/$program.c" -o "$work/aarch64/program.o"
    for library in static shared; do
        "$tools/ld.lld" -m aarch64linux -pie --dynamic-linker /lib/ld-linux-aarch64.so.1 $cross/lib/Scrt1.o \
            $cross/lib/crti.o "$work/aarch64/program.o" "$work/aarch64/$library" $cross/lib/libc.so.6 \
            $cross/lib/libc_nonshared.a $cross/lib/ld-linux-aarch64.so.1 $cross/lib/crtn.o \
            -o "$work/aarch64/${program##*/}.$library"
    done
done
for library in static shared; do
    emulated "$work/aarch64/bay_market_test.$library"
    emulated "$work/aarch64/tables_test.$library"
    emulated "$work/aarch64/stack_test.$library"
    emulated "$work/aarch64/calls.$library" "$seed" "$calls" >"$work/calls.aarch64-$library"
    same "aarch64-$library"
done
runs=0
options=('' --quiet --why --write --csv '--quiet --rule 2' '--why --rule 1' '--csv --rule 2' --wrong '--rule 3')
for file in examples/*.sheet examples/*.csv /dev/null; do
    for option in "${options[@]}"; do
        read -ra words <<<"$option"
        "$plain/clear" "${words[@]}" <"$file" >"$work/one" 2>&1
        emulated "$made/aarch64-linux/clear" "${words[@]}" <"$file" >"$work/other" 2>&1
        cmp "$work/one" "$work/other"
        runs=$((runs + 1))
    done
done
echo "aarch64 clear: $runs runs as x86-64"

# wasm32 in Node, jsc and Chromium
tests/targets/calls_wasm.sh "$work/calls.wasm"
modules=("$made/wasm32/bay_market.wasm" "$work/calls.wasm")
node tests/targets/calls.mjs "${modules[@]}" "$seed" "$calls" >"$work/calls.wasm32-node"
same wasm32-node
node tests/targets/stacks.mjs "${modules[@]}" "$seed"
jsc -m tests/targets/jsc.mjs -- "${modules[@]}" "$seed" "$calls" >"$work/calls.wasm32-jsc"
same wasm32-jsc
jsc -m tests/targets/jsc.mjs -- "${modules[0]}"
node tests/targets/page.mjs "${modules[@]}" "$seed" "$calls" >"$work/page" || { cat "$work/page" >&2; exit 1; }
[ "$(head -n 1 "$work/page")" = "$(sha256sum <"$work/calls" | cut -d ' ' -f 1)" ]
echo "wasm32-chromium: $calls calls as x86-64"
tail -n +2 "$work/page"

# the JavaScript module
cmp js/bay_market.wasm "${modules[0]}"
node --test js/tests/*.test.mjs >"$work/js" || { cat "$work/js" >&2; exit 1; }
grep -E '^# (tests|pass) ' "$work/js"
node tests/targets/said.mjs "$seed" 3000 | tests/targets/said.py "$plain/libbay_market.so"

tests/packages.sh
