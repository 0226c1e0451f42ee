#!/usr/bin/env bash
# Versions do not mix: a library of another version than the header is not linked, static or shared, and not loaded, and
# what is said names the version; C and C++, with and without optimization, with a linker that drops what is not used.
# Where BAY_MARKET_UNLINKED is defined no library is wanted. Takes the folder that has the libraries.
set -euo pipefail
cd -- "$(dirname -- "$(readlink -f -- "$0")")/.."

libraries=$(readlink -f -- "$1")
work=$(mktemp -d)
trap 'rm -rf "$work"' EXIT
version=$(sed -n 's/^#define BAY_MARKET_VERSION "\(.*\)"$/\1/p' include/bay_market.h)
name=bay_market_${version//./_}
soname=$(scripts/soname)

# right and wrong are this library and the same under the name of another version
mkdir "$work/right" "$work/wrong"
cp "$libraries/libbay_market.a" "$work/right"
objcopy --redefine-sym "$name=bay_market_0_9_9" "$libraries/libbay_market.a" "$work/wrong/libbay_market.a"
for which in right wrong; do
    gcc -shared -nostdlib -Wl,-soname,"$soname" -Wl,--whole-archive "$work/$which/libbay_market.a" \
        -o "$work/$which/$soname"
    ln -s "$soname" "$work/$which/libbay_market.so"
done
nm -D "$work/right/$soname" | grep -q " $name$"
nm -D "$work/wrong/$soname" | grep -q ' bay_market_0_9_9$'

# one calls a function, the other includes the header and calls none
echo '#include "bay_market.h"' >"$work/none.c"
echo 'int main(void) { return 0; }' >>"$work/none.c"
echo '#include "bay_market.h"' >"$work/one.c"
echo 'int main(void) { return bay_market_clear(3, 0, 0, 0, 0, 0, 0, 0, 0, 0, 0, 0, 0, 0, 0, 0, 0, 0, 0, 0, 0, 0) != 18; }' \
    >>"$work/one.c"

linked=0
while read -r words; do
    for program in one none; do
        for library in libbay_market.a libbay_market.so; do
            # shellcheck disable=SC2086  # words
            $words -Iinclude "$work/$program.c" -x none "$work/right/$library" -o "$work/program"
            LD_LIBRARY_PATH=$work/right "$work/program"
            # shellcheck disable=SC2086  # words
            if $words -Iinclude "$work/$program.c" -x none "$work/wrong/$library" -o "$work/other" 2>"$work/said"; then
                echo "$words: $program.c is linked with a $library of another version" >&2
                exit 1
            fi
            grep -Eq "undefined (reference to|symbol: ).*\b$name\b" "$work/said"
            linked=$((linked + 1))
        done
        # linked with the right one, and another is there when it is run; a program at a fixed place binds at its calls
        if [[ $words != *-no-pie* ]]; then
            if LD_LIBRARY_PATH=$work/wrong "$work/program" 2>"$work/said"; then
                echo "$words: $program.c runs with a library of another version" >&2
                exit 1
            fi
            grep -q "undefined symbol: $name" "$work/said"
        fi
        if [ $program = none ]; then
            # shellcheck disable=SC2086  # words
            $words -DBAY_MARKET_UNLINKED -Iinclude "$work/none.c" -o "$work/program"
            "$work/program"
        fi
    done
done <<'END'
gcc -O0
gcc -O2
gcc -O2 -flto
gcc -O2 -fno-pie -no-pie
gcc -O2 -ffunction-sections -fdata-sections -Wl,--gc-sections
g++ -O0 -x c++
g++ -O2 -x c++
END

gcc -std=c11 -Wall -Wextra -Werror -Iinclude tests/c/dlopen_test.c -o "$work/dlopen"
"$work/dlopen" "$work/right/$soname"
echo "versions: $linked wrong libraries not linked, none loaded"
