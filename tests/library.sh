#!/usr/bin/env bash
# The header and the libraries from C and C++, by gcc and clang, static and shared, and as they are installed; the shared
# one from Python.
# Takes the folder that has the libraries.
set -euo pipefail
cd -- "$(dirname -- "$(readlink -f -- "$0")")/.."

libraries=$(readlink -f -- "$1")
work=$(mktemp -d)
trap 'rm -rf "$work"' EXIT
strict='-Wall -Wextra -Wpedantic -Wconversion -Werror'

# the header alone: clang is the machine's, or the kit's with gcc's headers
if ! clang=$(command -v clang); then
    clang="$(dirname -- "$(rt doc)")/toolchain/bin/clang"
    clang="$clang -isystem $(gcc -print-file-name=include)"
fi
for compiler in gcc "$clang"; do
    for language in 'c -std=c99' 'c -std=c11' 'c++ -std=c++11' 'c++ -std=c++17'; do
        # shellcheck disable=SC2086  # words
        echo '#include "bay_market.h"' | $compiler -x $language $strict -fsyntax-only -Iinclude -
    done
done
for compiler in g++ $(command -v clang++ || true); do
    # shellcheck disable=SC2086  # words
    echo '#include "bay_market.hpp"' | $compiler -x c++ -std=c++20 $strict -fsyntax-only -Iinclude -
done

# what the library needs of others, and what it gives
given=$(nm -g --defined-only "$libraries/libbay_market.a" | awk 'NF == 3 { print $3 }' | sort | xargs)
needed=$(nm -u "$libraries/libbay_market.a" | awk '$1 == "U" { print $2 }' | sort | xargs)
shared=$(nm -D --defined-only "$libraries/libbay_market.so" | awk '{ print $3 }' | sort | xargs)
[ "$given" = "$(scripts/exports --symbols)" ]
[ "$needed" = 'memcpy memset' ]
[ "$shared" = "$given" ]

# Python's table of the exports
tests/exports_test.py "$libraries/libbay_market.so"

# the tests over an installed library: by the archive, and by the shared one through pkg-config where that is
# shellcheck disable=SC2086  # words
tests() {
    gcc -std=c11 $strict tests/c/bay_market_test.c "$@" -o "$work/c"
    gcc -std=c11 $strict tests/c/tables_test.c "$@" -o "$work/tables"
    g++ -std=c++17 $strict tests/c/bay_market_test.cpp "$@" -o "$work/cpp"
    g++ -std=c++20 $strict tests/c/spans_test.cpp "$@" -o "$work/spans"
    gcc -std=gnu11 -Wall -Wextra -Werror tests/c/stack_test.c "$@" -o "$work/stack"
    "$work/c"
    "$work/tables"
    "$work/cpp"
    "$work/spans"
    "$work/stack"
    tests/c_page.py "$@"
}
prefix="$work/a prefix"
BAY_MARKET_LIB_DIR=$libraries scripts/install "$prefix" >/dev/null
tests "-I$prefix/include" "$prefix/lib/libbay_market.a"
export LD_LIBRARY_PATH="$prefix/lib"
tests "-I$prefix/include" "-L$prefix/lib" -lbay_market
readelf -d "$work/c" | grep -qF "[$(scripts/soname)]"
tests/versions.sh "$libraries"

# one version, in the header, the pkg-config file and the crate
version=$(sed -n 's/^#define BAY_MARKET_VERSION "\(.*\)"$/\1/p' "$prefix/include/bay_market.h")
[ -n "$version" ]
grep -qx "Version: $version" "$prefix/lib/pkgconfig/bay_market.pc"
grep -qx "version = \"$version\"" rust/Cargo.toml
if command -v pkg-config >/dev/null; then
    export PKG_CONFIG_PATH="$prefix/lib/pkgconfig"
    [ "$(pkg-config --modversion bay_market)" = "$version" ]
    declare -a words
    eval "words=($(pkg-config --cflags --libs bay_market))"
    tests "${words[@]}"
fi
