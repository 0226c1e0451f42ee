#!/usr/bin/env bash
# What is cheap to look at, before any proof: the tools, the layout of the text, the lists that must agree. How `rt fmt`
# lays out the crates is looked at by rt ci.
set -euo pipefail
cd -- "$(dirname -- "$(readlink -f -- "$0")")/.."

missing=
for tool in rt python3 gcc g++ cargo cargo-fmt rustfmt cargo-clippy nm ar objcopy readelf sha256sum flock install timeout; do
    command -v "$tool" >/dev/null || missing+=" $tool"
done
[ -z "$missing" ] || { echo "not installed:$missing" >&2; exit 1; }
for tool in clang pkg-config script; do
    command -v "$tool" >/dev/null || echo "not installed, so a test is done without it: $tool"
done

# a crate that is not listed would not be proved
for folder in crates/*/; do
    name=$(basename "$folder")
    grep -Eq "^[[:space:]]*${name}([[:space:]]+staticlib)?[[:space:]]*:" crates.txt || { echo "crates/$name is not listed in crates.txt" >&2; exit 1; }
done
scripts/refusals --check
scripts/exports --check
tools/man.py --check
tests/lines.py
# the table of walks is as its generator has it
tools/walk_table.py --check
cargo fmt --all --check --manifest-path rust/Cargo.toml
if command -v shellcheck >/dev/null; then
    shellcheck clear test bench scripts/* tests/*.sh tests/wrong_program .ci/run packaging/debian/p* examples/*.sh
fi

# the prebuilt files are those of the sources; the rest of the gate builds them anew and compares
for folder in prebuilt/{x86_64,x86_64-v3,aarch64}-linux prebuilt/wasm32; do
    if [ "$(cat "$folder/SOURCES.sha256")" != "$(scripts/sources)" ]; then
        echo "$folder is not of these sources: run scripts/prebuild and commit it" >&2
        exit 1
    fi
    (cd "$folder" && sha256sum --check --quiet SHA256SUMS)
done
scripts/wheel --check
if command -v node >/dev/null; then node web/build.mjs --check; fi
