#!/usr/bin/env bash
# tests/prebuilt.sh BUILT: the prebuilt files are those of BUILT, byte for byte, but for the marks of the kit that made
# them: the sum of its logic in the section .comment, and the build ID over it. Kits with one compiler give one code.
set -euo pipefail
built=$(readlink -f -- "$1")
cd -- "$(dirname -- "$(readlink -f -- "$0")")/../prebuilt/x86_64-linux"
work=$(mktemp -d)
trap 'rm -rf "$work"' EXIT

[ "$(ls)" = "$(ls "$built")" ] || { echo 'prebuilt/ has other files than were built' >&2; exit 1; }
cmp SOURCES.sha256 "$built/SOURCES.sha256"
sha256sum --quiet --check SHA256SUMS
for file in clear libbay_market.a libbay_market.so; do
    objcopy -R .comment -R .note.gnu.build-id "$file" "$work/prebuilt"
    objcopy -R .comment -R .note.gnu.build-id "$built/$file" "$work/built"
    cmp "$work/prebuilt" "$work/built"
done
if cmp -s KIT "$built/KIT"; then
    cmp SHA256SUMS "$built/SHA256SUMS"
else
    echo "prebuilt by $(cat KIT), built by $(cat "$built/KIT"): the same code"
fi
