#!/usr/bin/env bash
# calls_wasm.sh OUT: compiles calls.c as the module OUT, which stands beside the engine's in its memory, from 1 MiB on;
# lengths have 64 bits there as everywhere. By the kit's clang, with gcc's headers.
set -euo pipefail
out=$(readlink -f -- "$1")
cd -- "$(dirname -- "$(readlink -f -- "$0")")/../.."
clang="$(dirname -- "$(rt doc)")/toolchain/bin/clang"
work=$(mktemp -d)
trap 'rm -rf "$work"' EXIT

"$clang" --no-default-config --target=wasm32 -nostdinc -isystem "$(gcc -print-file-name=include)" -Iinclude -std=gnu11 \
    -O1 -Wall -Wextra -Werror -ffreestanding -fno-builtin -Wno-builtin-macro-redefined -U__SIZE_TYPE__ \
    '-D__SIZE_TYPE__=unsigned long long' -c tests/targets/calls.c -o "$work/calls.o"
ln -s "$clang" "$work/wasm-ld"
"$work/wasm-ld" --no-entry --import-memory --allow-undefined --no-stack-first --global-base=1048576 --export=begin \
    --export=call --export=name --export=sum --export=prepare --export=repeat "$work/calls.o" -o "$out"
