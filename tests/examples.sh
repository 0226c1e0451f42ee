#!/usr/bin/env bash
# The examples: one task in six languages, in at most 40 lines each; and in C and Rust: two gates' sheets, joined, are
# cleared as the sheet of both, and a gate joined with itself is refused; a comma-separated market is written as its
# sheet, and lines that end in LF alone are refused; a round comes once from a desk, and once more from another; a
# clearing that is handed in is right, wrong or refused; a guest's price list tells what its rows gain. Takes the folder with the library; Python and JavaScript have the prebuilt one.
set -euo pipefail
cd -- "$(dirname -- "$(readlink -f -- "$0")")/.."

libraries=$(readlink -f -- "$1")
work=$(mktemp -d)
trap 'rm -rf "$work"' EXIT
export BAY_MARKET_LIB_DIR=$libraries
in_rust() {
    local name=$1
    shift
    cargo run --offline --locked --quiet --release --manifest-path rust/Cargo.toml --example "$name" -- "$@"
}
# refuses PATTERN COMMAND..: the command says so on standard error, ends so and writes nothing else
refuses() {
    local pattern=$1
    shift
    if "$@" >"$work/out" 2>"$work/err"; then
        echo "not refused: $*" >&2
        exit 1
    fi
    grep -Eq "$pattern" "$work/err"
    [ ! -s "$work/out" ]
}
for name in two_gates csv_to_sheet two_desks marking price_list; do
    gcc -std=c11 -Wall -Wextra -Wpedantic -Wconversion -Werror -Iinclude "examples/$name.c" \
        "$libraries/libbay_market.a" -o "$work/$name"
done
# WORDS..: the task prints what it should, and says in one line why it cannot do it for a market that is refused, for a
# guest that is not there and without words
one_guest() {
    "$@" examples/evening.sheet 24 | cmp - examples/one_guest.txt
    refuses 'an ask is above 1,000,000|AskOutOfRange' "$@" examples/refused.sheet 1
    refuses 'no (such )?guest' "$@" examples/evening.sheet 25
    refuses 'usage: ' "$@"
    [ "$(wc -l <"$work/err")" = 1 ]
}
gcc -std=c11 -Wall -Wextra -Wpedantic -Wconversion -Werror -Iinclude examples/one_guest.c \
    "$libraries/libbay_market.a" -o "$work/in_c"
g++ -std=c++20 -Wall -Wextra -Wpedantic -Wconversion -Werror -Iinclude examples/one_guest.cpp \
    "$libraries/libbay_market.a" -o "$work/in_cpp"
one_guest "$work/in_c"
one_guest "$work/in_cpp"
one_guest in_rust one_guest
one_guest env PYTHONPATH=python python3 examples/one_guest.py
if command -v node >/dev/null; then
    one_guest node examples/one_guest.mjs
else
    echo 'not installed, so that its example is not run: node'
    [ -z "${CI:-}" ] || exit 1
fi
PATH=$PWD:$PATH examples/one_guest.sh examples/evening.sheet 24 | cmp - examples/one_guest_in_shell.txt
for file in examples/one_guest.*; do
    [ "$(wc -l <"$file")" -le 40 ] || { echo "$file has more than 40 lines" >&2; exit 1; }
done

tr -d '\r' <examples/fleet.csv >"$work/lines.csv"
for language in "$work/" 'in_rust '; do
    # shellcheck disable=SC2086  # words
    ${language}two_gates examples/gate_north.sheet examples/gate_south.sheet | cmp - examples/table_i.txt
    # shellcheck disable=SC2086
    refuses 'a ticket is in both markets|TicketInBoth' \
        ${language}two_gates examples/gate_north.sheet examples/gate_north.sheet
    # shellcheck disable=SC2086
    ${language}csv_to_sheet examples/fleet.csv | cmp - examples/fleet.sheet
    # shellcheck disable=SC2086
    refuses 'stands where it may not|MalformedText' ${language}csv_to_sheet "$work/lines.csv"
    # shellcheck disable=SC2086
    ${language}two_desks | cmp - <(cat <<'END'
desk 0 round 1: posted
desk 0 round 1: refused 11: the round is not the desk's last one plus 1, or no round is left
desk 1 round 1: posted
guest 1 owes 48
guest 2 owes 0
station 1 sold 6 paid 36
station 2 sold 0 paid 0
house 12
desk 0 last round 1
desk 1 last round 1
END
)
    # shellcheck disable=SC2086
    ${language}marking | cmp - <(cat <<'END'
guest 1 holds a place at station 1
station 1 floor 20
station 2 floor 0
firm 1: right
firm 2: wrong
firm 3: refused 10: a list that is lent or handed in has another length
END
)
    # shellcheck disable=SC2086
    ${language}price_list | cmp - <(cat <<'END'
station 2 from a total of 16 for 16
station 4 from a total of 15 for 15
row 1 gains 10
row 2 gains 4
row 3 gains 4
row 4 gains 0
END
)
done
echo 'examples: as expected'
