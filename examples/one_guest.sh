#!/bin/sh
# Clears a market, tells one guest why it wins or loses, and posts the round to a book in a file.
#
#     PATH=$PWD:$PATH examples/one_guest.sh examples/evening.sheet 24
#
# Where bay is installed, the PATH is as it is. Each line ends the script where the market is refused.
set -eu
[ $# = 2 ] || { echo 'usage: one_guest.sh FILE GUEST' >&2; exit 2; }

folder=$(mktemp -d)
trap 'rm -rf "$folder"' EXIT
bay clear "$1" | grep -E '^(cut|margin) '
bay why --guest "$2" "$1"
bay book new "$folder/park.db" --guests 200 --stations 40 >"$folder/said"
bay post --book "$folder/park.db" --desk 0 --round 1 "$1"
bay book "$folder/park.db" --guest "$2"
bay book "$folder/park.db" --verify | head -n 1
