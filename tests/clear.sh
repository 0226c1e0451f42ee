#!/usr/bin/env bash
# The exit codes and messages of ./clear, and the texts of the samples.
set -euo pipefail
cd -- "$(dirname -- "$(readlink -f -- "$0")")/.."

root=$PWD
work=$(mktemp -d)
trap 'chmod -R u+w "$work"; rm -rf "$work"' EXIT
tests=0

# expect STATUS STDOUT STDERR COMMAND..: the command, in bash, ends so and writes these, where a text may be a pattern
expect() {
    local status=0 out err
    timeout 20 bash -c "$4" >"$work/out" 2>"$work/err" </dev/null || status=$?
    out=$(tr -d '\0' <"$work/out") err=$(cat "$work/err")
    tests=$((tests + 1))
    # shellcheck disable=SC2053  # patterns
    if [ "$status" != "$1" ] || [[ $out != $2 ]] || [[ $err != $3 ]] || [ "$(wc -l <"$work/err")" -gt 1 ]; then
        printf 'failed: %s\n  status %s, expected %s\n  out %q\n  expected %q\n  err %q\n  expected %q\n' \
            "$4" "$status" "$1" "$out" "$2" "$err" "$3" >&2
        exit 1
    fi
}

# expect_sheet FILE COMMAND: the command, in bash, ends with 0 and writes the bytes of FILE
expect_sheet() {
    expect 0 '*' '' "$2"
    if ! cmp "$work/out" "$1" >&2; then
        printf 'failed: %s\n' "$2" >&2
        exit 1
    fi
}

# the samples, by name and through standard input
for sheet in examples/*.sheet; do
    text=$(cat "${sheet%.sheet}.txt")
    status=0
    [[ $text != refused* ]] || status=1
    expect $status "$text" '' "./clear $sheet"
    expect $status "$text" '' "./clear <$sheet"
    expect $status "$text" '' "cat $sheet | ./clear -"
    expect $status "$text" '' "./clear - <$sheet"
    if [ $status = 1 ]; then
        expect 1 "$text" '' "./clear --write $sheet"
    else
        expect_sheet "$sheet" "./clear --write $sheet"
        expect_sheet "$sheet" "./clear --write <$sheet"
        expect_sheet "$sheet" "cat $sheet | ./clear --write -"
        expect 0 "$text" '' "./clear --write -- $sheet | ./clear"
    fi
done

# quiet rounds: two guests more than in examples/table_i.txt; case E seats the same
quiet='cut 3
guest 1 station 4 charge 15
guest 2 station 0 charge 0
guest 3 station 2 charge 18
guest 4 station 2 charge 12
guest 5 station 4 charge 9
station 1 sold 0 paid 0
station 2 sold 10 paid 30
station 3 sold 0 paid 0
station 4 sold 8 paid 24
station 5 sold 0 paid 0
margin 0'
expect 0 "$quiet" '' './clear --quiet examples/table_i.sheet'
expect 0 "$quiet" '' './clear --quiet <examples/table_i.sheet'
expect 0 "$quiet" '' 'cat examples/table_i.sheet | ./clear --quiet -'
expect 0 "$quiet" '' './clear --quiet -- examples/table_i.sheet'
expect 0 "$(cat examples/case_e.txt)" '' './clear --quiet examples/case_e.sheet'
expect 1 "$(cat examples/refused.txt)" '' './clear --quiet examples/refused.sheet'

# what decided: wins and losses of Table I and case E
why='guest 1 wins station 4 charge 15
guest 2 loses: bid below the cut
guest 3 wins station 2 charge 18
guest 4 loses: outbid
guest 5 loses: outbid'
expect 0 "$why" '' './clear --why examples/table_i.sheet'
expect 0 "$why" '' './clear --why <examples/table_i.sheet'
expect 0 "$why" '' 'cat examples/table_i.sheet | ./clear --why -'
expect 0 "$why" '' './clear --why -- examples/table_i.sheet'
expect 0 $'guest 1 wins station 1 charge 24\nguest 2 loses: outbid' '' './clear --why examples/case_e.sheet'
expect 1 "$(cat examples/refused.txt)" '' './clear --why examples/refused.sheet'
# two stations that ask 1 and 3, and four guests with each kind of row; without its guests nothing is told
{
    printf '\4\0\2\0\1\0\0\0\1\0\3\0\0\0\1\0'
    printf '\1\0\1\0\0\0\0'
    printf '\1\0\2\0\0\0\2\11\0\0\0'
    printf '\1\0\3\0\0\0\3\2\0\0\0\11\0\0\0'
    printf '\1\0\4\0\0\0\1\5\0\0\0'
} >"$work/reasons"
reasons='guest 1 loses: no bid
guest 2 loses: station not open
guest 3 loses: bid below the cut
guest 4 wins station 1 charge 3'
expect 0 "$reasons" '' "./clear --why $work/reasons"
{
    printf '\0\0'
    head -c 16 "$work/reasons" | tail -c 14
} >"$work/nobody"
expect 0 $'cut 3\nstation 1 *' '' "./clear $work/nobody"
expect 0 '' '' "./clear --why $work/nobody"
[ ! -s "$work/out" ]
expect 0 '' 'clear: no guests' "$(scripts/current)/clear --why <$work/nobody"

# comma-separated markets: the fleet's text, as LibreOffice wrote it, on every page as its sheet
fleet=$(cat examples/fleet.txt)
expect 0 "$fleet" '' './clear --csv examples/fleet.csv'
expect 0 "$fleet" '' './clear --csv <examples/fleet.csv'
expect 0 "$fleet" '' 'cat examples/fleet.csv | ./clear --csv -'
expect 0 "$fleet" '' './clear --csv -- examples/fleet.csv'
for page in --quiet --why '--rule 2' '--quiet --rule 2' '--why --rule 2'; do
    # shellcheck disable=SC2086  # words
    text=$(./clear $page examples/fleet.sheet)
    expect 0 "$text" '' "./clear --csv $page examples/fleet.csv"
    expect 0 "$text" '' "./clear $page --csv examples/fleet.csv"
    expect 0 "$text" '' "./clear --csv $page <examples/fleet.csv"
done
expect_sheet examples/fleet.sheet './clear --csv --write examples/fleet.csv'
expect_sheet examples/fleet.sheet './clear --write --csv <examples/fleet.csv'
expect 0 "$fleet" '' './clear --csv --write examples/fleet.csv | ./clear'
expect 0 $'cut 5\nstation 1 sold 0 paid 0\nmargin 0' '' "printf '5\r\n1\r\n' | ./clear --csv"
expect 0 '' '' "printf '5\r\n1\r\n' | ./clear --csv --why"
[ ! -s "$work/out" ]
# each refusal of a text, by each page; a value out of range is the clearing's business
forty=$(printf '1,%.0s' {1..40})
while read -r number text; do
    for page in '' --quiet --why --write '--rule 2'; do
        expect 1 "refused $number" '' "printf '$text' | ./clear --csv $page"
    done
done <<END
22 5\r\n1
22 5\n1\n
22 5 \r\n1\r\n
22 5,\r\n1,\r\n
23 5\r\n65536\r\n
23 00000000005\r\n1\r\n
2 $forty
6 1000001\r\n1\r\n
15 5\r\n1\r\n7,1,\r\n7,1,\r\n
END
expect 1 'refused 22' '' './clear --csv </dev/null'
expect 1 'refused 22' '' './clear --csv examples/fleet.sheet'
expect 1 'refused 2' '' './clear examples/fleet.csv'
expect 1 'refused 22' '' "tr -d '\r' <examples/fleet.csv | ./clear --csv"
# the longest text, and one byte more: as many guests as there may be, and each field of ten digits
field=0000000001,
line=$(printf "$field%.0s" {1..40})
{
    printf '%s\r\n%s\r\n' "${line%,}" "${line%,}"
    for guest in {1000000001..1000000200}; do
        printf '%s,%s%s\r\n' "$guest" "$field" "${line%,}"
    done
} >"$work/longest"
[ "$(wc -c <"$work/longest")" = 93482 ]
expect 0 $'cut 1\nguest 1 station 0 charge 0\n*guest 200 *margin 0' '' "./clear --csv $work/longest"
expect 1 'refused 2' '' "{ cat $work/longest && printf 1; } | ./clear --csv"
expect 1 'refused 2' '' "cat $work/longest $work/longest $work/longest | ./clear --csv"
expect 2 '' 'clear: more than one --csv*' './clear --csv --csv examples/fleet.csv'
expect 2 '' 'clear: no such file: nofile' './clear --csv nofile'
expect 2 '' 'clear: no such option: --cs *' './clear --cs examples/fleet.csv'
expect 2 '' 'clear: --write clears nothing*' './clear --csv --write --rule 2 examples/fleet.csv'
expect 3 '' 'clear: cannot read standard input' './clear --csv </'
expect 3 '' 'clear: cannot read standard input' './clear --csv <&-'
expect 3 '' 'clear: cannot read /proc/self/mem' './clear --csv /proc/self/mem'
expect 3 '' 'clear: cannot write standard output' './clear --csv examples/fleet.csv >/dev/full'
expect 3 '' 'clear: cannot write standard output' './clear --csv --write examples/fleet.csv >/dev/full'

# case E with a set bit for a bid of 0; without it the sheet is written as it is
{
    head -c 33 examples/case_e.sheet
    printf '\3\10\0\0\0\0\0\0\0'
} >"$work/empty"
[ "$(wc -c <"$work/empty")" = 42 ]
expect 1 'refused 19' '' "./clear $work/empty"
expect 1 'refused 19' '' "./clear --quiet $work/empty"
expect 1 'refused 19' '' "./clear --why $work/empty"
expect 1 'refused 19' '' "./clear --write $work/empty"
expect_sheet examples/case_e.sheet "./clear --write examples/case_e.sheet"
expect_sheet examples/case_e.sheet "./clear --write examples/case_e.sheet | ./clear --write"

# case E with tickets 9 and 4, and with equal ones
tickets() {
    head -c 18 examples/case_e.sheet
    printf '%b\0\0\0\1\10\0\0\0\3\0%b\0\0\0\1\10\0\0\0' "$1" "$2"
}
tickets '\1' '\2' | cmp - examples/case_e.sheet
tickets '\11' '\4' >"$work/tickets"
expect 0 $'cut 6\nguest 1 station 0 charge 0\nguest 2 station 1 charge 24\n*' '' "./clear $work/tickets"
expect_sheet "$work/tickets" "./clear --write $work/tickets"
tickets '\4' '\4' >"$work/equal"
expect 1 'refused 15' '' "./clear $work/equal"
expect 1 'refused 15' '' "./clear --write $work/equal"
expect 0 $'cut 6\nguest 1 station 0 charge 0\nguest 2 station 1 charge 24\n*' '' "./clear --quiet $work/tickets"
expect 1 'refused 15' '' "./clear --quiet $work/equal"
expect 0 $'guest 1 loses: outbid\nguest 2 wins station 1 charge 24' '' "./clear --why $work/tickets"
expect 1 'refused 15' '' "./clear --why $work/equal"

# the largest sheet, a byte more, and no byte
{
    printf '\310\0\050\0'
    printf '\1\0\0\0\1\0%.0s' {1..40}
} >"$work/stations"
{
    cat "$work/stations"
    for ticket in {1..200}; do
        printf '\1\0%b\0\0\0\377\377\377\377\377' "\\0$(printf %o "$ticket")"
        printf '\372\0\0\0%.0s' {1..40}
    done
} >"$work/largest"
[ "$(wc -c <"$work/largest")" = 34444 ]
expect 0 $'cut 1\n*' '' "./clear $work/largest"
expect 1 'refused 4' '' "{ cat $work/largest; printf x; } | ./clear"
expect 1 'refused 1' '' './clear </dev/null'
expect_sheet "$work/largest" "./clear --write $work/largest"
expect 1 'refused 4' '' "{ cat $work/largest; printf x; } | ./clear --write"
expect 1 'refused 1' '' './clear --write </dev/null'
expect 0 $'cut 1\n*' '' "./clear --quiet $work/largest"
expect 1 'refused 4' '' "{ cat $work/largest; printf x; } | ./clear --quiet"
expect 1 'refused 1' '' './clear --quiet </dev/null'
expect 0 $'guest 1 loses: station not open\n*guest 200 loses: station not open' '' "./clear --why $work/largest"
expect 1 'refused 4' '' "{ cat $work/largest; printf x; } | ./clear --why"
expect 1 'refused 1' '' './clear --why </dev/null'
# no bids, and a set bit for each of them
{
    cat "$work/stations"
    for ticket in {1..200}; do
        printf '\1\0%b\0\0\0\0\0\0\0\0' "\\0$(printf %o "$ticket")"
    done
} >"$work/no_bids"
expect_sheet "$work/no_bids" "./clear --write $work/no_bids"
expect 1 'refused 19' '' "tr '\372' '\0' <$work/largest | ./clear --write"

# help, wrong use, no such file
expect 0 'usage: ./clear*' '' './clear --help'
expect 0 'usage: ./clear*' '' './clear -h'
expect 2 '' 'clear: no such option: -x*' './clear -x'
expect 2 '' 'clear: more than one FILE*' './clear a b'
expect 2 '' 'clear: no such file: nofile' './clear nofile'
expect 2 '' 'clear: no such file: ' "./clear ''"
expect 2 '' 'clear: no such file: -x' './clear -- -x'
expect 2 '' 'clear: a folder, not a file: examples' './clear examples'
expect 0 'usage: ./clear*' '' './clear --write --help'
expect 2 '' 'clear: no such option: -x*' './clear --write -x'
expect 2 '' 'clear: more than one FILE*' './clear --write a b'
expect 2 '' 'clear: more than one FILE*' './clear examples/case_e.sheet --write'
expect 2 '' 'clear: no such file: nofile' './clear --write nofile'
expect 2 '' 'clear: no such file: --write' './clear -- --write'
expect 2 '' 'clear: a folder, not a file: examples' './clear --write examples'
expect 0 'usage: ./clear*--quiet*' '' './clear --quiet --help'
for two in '--quiet --write' '--write --quiet' '--quiet --quiet' '--why --write' '--write --why' '--quiet --why' \
    '--why --quiet' '--why --why' '--why --rule 2 --quiet'; do
    expect 2 '' 'clear: only one of --quiet, --why and --write*' "./clear $two examples/case_e.sheet"
done
expect 2 '' 'clear: no such option: -x*' './clear --quiet -x'
expect 2 '' 'clear: more than one FILE*' './clear --quiet a b'
expect 2 '' 'clear: more than one FILE*' './clear examples/case_e.sheet --quiet'
expect 2 '' 'clear: no such file: nofile' './clear --quiet nofile'
expect 2 '' 'clear: no such file: --quiet' './clear -- --quiet'
expect 0 'usage: ./clear*--why*' '' './clear --why --help'
expect 2 '' 'clear: no such option: -x*' './clear --why -x'
expect 2 '' 'clear: more than one FILE*' './clear --why a b'
expect 2 '' 'clear: more than one FILE*' './clear examples/case_e.sheet --why'
expect 2 '' 'clear: no such file: nofile' './clear --why nofile'
expect 2 '' 'clear: no such file: --why' './clear -- --why'

# rules: asks 1 to 6, one bay each, one guest that bids 9 at station 4, which is open under rule 2 alone
printf '\1\0\6\0' >"$work/six"
for ask in 1 2 3 4 5 6; do
    printf '%b\0\0\0\1\0' "\\0$ask" >>"$work/six"
done
printf '\1\0\1\0\0\0\10\11\0\0\0' >>"$work/six"
for first in '' '--rule 1' --quiet '--quiet --rule 1' '--rule 1 --quiet'; do
    expect 0 $'cut 4\nguest 1 station 0 charge 0\n*' '' "./clear $first $work/six"
done
for second in '--rule 2' '--quiet --rule 2' '--rule 2 --quiet'; do
    expect 0 $'cut 5\nguest 1 station 4 charge 5\n*station 4 sold 1 paid 5\n*' '' "./clear $second $work/six"
    expect 0 $'cut 5\nguest 1 station 4 charge 5\n*' '' "./clear $second <$work/six"
done
for first in --why '--why --rule 1' '--rule 1 --why'; do
    expect 0 'guest 1 loses: station not open' '' "./clear $first $work/six"
done
for second in '--why --rule 2' '--rule 2 --why'; do
    expect 0 'guest 1 wins station 4 charge 5' '' "./clear $second $work/six"
    expect 0 'guest 1 wins station 4 charge 5' '' "./clear $second <$work/six"
done
expect 0 "$(cat examples/table_i.txt)" '' './clear --rule 1 examples/table_i.sheet'
expect 1 "$(cat examples/refused.txt)" '' './clear --rule 2 examples/refused.sheet'
for wrong in 0 3 255 12 x "''" --quiet --why; do
    expect 2 '' 'clear: no such rule: *' "./clear --rule $wrong examples/case_e.sheet"
done
expect 2 '' 'clear: no such rule: none*' './clear --rule'
expect 2 '' 'clear: more than one --rule*' './clear --rule 1 --rule 2 examples/case_e.sheet'
expect 2 '' 'clear: --write clears nothing*' './clear --write --rule 2 examples/case_e.sheet'
expect 2 '' 'clear: --write clears nothing*' './clear --rule 2 --write examples/case_e.sheet'

# input and output that fail
expect 3 '' 'clear: cannot read standard input' './clear </'
expect 3 '' 'clear: cannot read standard input' './clear <&-'
expect 3 '' 'clear: cannot read /proc/self/mem' './clear /proc/self/mem'
expect 3 '' 'clear: cannot write standard output' './clear examples/full.sheet >/dev/full'
expect 3 '' 'clear: cannot write standard output' './clear examples/case_e.sheet >&-'
expect 3 '' 'clear: cannot write standard output' './clear examples/refused.sheet >/dev/full'
expect 3 '' 'clear: cannot write standard output' './clear --help >/dev/full'
expect 3 '' 'clear: cannot read standard input' './clear --write </'
expect 3 '' 'clear: cannot read standard input' './clear --write <&-'
expect 3 '' 'clear: cannot read /proc/self/mem' './clear --write /proc/self/mem'
expect 3 '' 'clear: cannot write standard output' './clear --write examples/full.sheet >/dev/full'
expect 3 '' 'clear: cannot write standard output' './clear --write examples/case_e.sheet >&-'
expect 3 '' 'clear: cannot write standard output' './clear --write examples/refused.sheet >/dev/full'
expect 3 '' 'clear: cannot read standard input' './clear --quiet </'
expect 3 '' 'clear: cannot write standard output' './clear --quiet examples/full.sheet >/dev/full'
expect 3 '' 'clear: cannot write standard output' './clear --quiet examples/refused.sheet >/dev/full'
expect 3 '' 'clear: cannot read standard input' './clear --why </'
expect 3 '' 'clear: cannot read standard input' './clear --why <&-'
expect 3 '' 'clear: cannot read /proc/self/mem' './clear --why /proc/self/mem'
expect 3 '' 'clear: cannot write standard output' './clear --why examples/full.sheet >/dev/full'
expect 3 '' 'clear: cannot write standard output' './clear --why examples/case_e.sheet >&-'
expect 3 '' 'clear: cannot write standard output' './clear --why examples/refused.sheet >/dev/full'
expect_sheet examples/case_e.sheet './clear --write examples/case_e.sheet 2>&-'
expect_sheet examples/case_e.sheet './clear --write examples/case_e.sheet <&-'
expect 0 "$(cat examples/case_e.txt)" '' './clear examples/case_e.sheet 2>&-'
expect 2 '' '' './clear nofile 2>&-'
expect 0 "$(cat examples/case_e.txt)" '' './clear examples/case_e.sheet <&-'
program=$(scripts/current)/clear
expect 3 '' 'clear: cannot write standard output' "$program <examples/case_e.sheet >/dev/full; exit 3"
expect 3 '' 'clear: cannot write standard output' "$program --write <examples/case_e.sheet >/dev/full; exit 3"
expect 3 '' 'clear: cannot write standard output' "$program --quiet <examples/case_e.sheet >/dev/full; exit 3"
expect 3 '' 'clear: cannot write standard output' "$program --why <examples/case_e.sheet >/dev/full; exit 3"
for arguments in -- --writ --write1 --writes.. --quie --quiet1 --quiets.. "''" - '--quiet --write' '--write --quiet' --rule \
    '--rule 0' '--rule 3' '--rule 12' '--rule x' '--rules 2' '--rule 2 --quiet' '--quiet --rule' '--quiet --rule 3' \
    '--write --rule 2' '--rule 2 --write' '--quiet --rule 2 x' --wh --why1 --whys.. '--why --write' '--why --quiet' \
    '--quiet --why' '--why --why' '--rule 2 --why' '--why --rule' '--why --rule 3' '--why --rule 2 x' --cs --csv1 --csvs.. \
    '--csv --csv' '--csv x' '--csv --rule' '--csv --rule 3' '--csv --write --rule 2' '--csv --why --rule 2 x' '--quiet --csv'; do
    expect 3 '' 'clear: no such argument' "$program $arguments <examples/case_e.sheet; exit 3"
done
if [ "$(id -u)" != 0 ]; then
    : >"$work/secret"
    chmod 0 "$work/secret"
    expect 3 '' "clear: cannot read $work/secret" "./clear $work/secret"
fi

# from other folders: through a link, with CDPATH, and with spaces in names
case_e=$(cat examples/case_e.txt)
ln -s "$root/clear" "$work/link"
cp examples/case_e.sheet "$work/a sheet"
expect 0 "$case_e" '' "cd / && $work/link $root/examples/case_e.sheet"
expect 0 "$case_e" '' "cd $work && CDPATH=/:$root ./link 'a sheet'"
expect 0 "$case_e" '' "cd .. && CDPATH=$root $(basename "$root")/clear $root/examples/case_e.sheet"

# a terminal on standard input: the sample; on standard output: no sheet
if command -v script >/dev/null; then
    expect 0 "$(cat examples/table_i.txt)" '' "script -qec ./clear /dev/null </dev/null | tr -d '\r'"
    expect 0 "$quiet" '' "script -qec './clear --quiet' /dev/null </dev/null | tr -d '\r'"
    expect 0 "$why" '' "script -qec './clear --why' /dev/null </dev/null | tr -d '\r'"
    expect 0 "$fleet" '' "script -qec './clear --csv' /dev/null </dev/null | tr -d '\r'"
    expect_sheet examples/table_i.sheet "script -qec './clear --write >$work/sample' /dev/null </dev/null; cat $work/sample"
    expect 2 'clear: a sheet is bytes and not for a terminal*' '' \
        "script -qec './clear --write examples/case_e.sheet' /dev/null </dev/null"
fi

# copies with other sources: stale files are not run, and a build that cannot be is told in a line
copy=$work/copy
mkdir "$copy"
cp -r clear scripts crates.txt examples "$copy"
tar -c --exclude='crates/*/out' crates | tar -x -C "$copy"
mkdir -p "$copy/prebuilt"
cp -r "$(scripts/current)" "$copy/prebuilt/x86_64-linux"
expect 0 "$case_e" '' "PATH=/usr/bin:/bin $copy/clear $copy/examples/case_e.sheet"
chmod -R a-w "$copy"
expect 0 "$case_e" '' "$copy/clear $copy/examples/case_e.sheet"
chmod -R u+w "$copy"
# another machine: its own program where there is one, else a line
mkdir "$work/uname"
machine() {
    printf '#!/bin/sh\necho %s\n' "$1" >"$work/uname/uname"
    chmod +x "$work/uname/uname"
}
elsewhere="PATH=$work/uname:\$PATH $copy/clear $copy/examples/case_e.sheet"
machine riscv64
expect 3 '' 'clear: there is no engine for this machine, riscv64: *' "$elsewhere"
machine aarch64
expect 3 '' 'clear: the sources are not those of prebuilt/, *' "$elsewhere"
cp -r "$copy/prebuilt/x86_64-linux" "$copy/prebuilt/aarch64-linux"
mv "$copy/prebuilt/x86_64-linux" "$copy/prebuilt/none"
expect 0 "$case_e" '' "$elsewhere"
mv "$copy/prebuilt/none" "$copy/prebuilt/x86_64-linux"
# a program that fails, and one that writes nothing and says no word
for program in 'kill -9 $$' 'exit 1' 'exit 0' 'echo oops >&2'; do
    printf '#!/bin/sh\n%s\n' "$program" >"$copy/prebuilt/x86_64-linux/clear"
    expect 3 '' 'clear: the program failed: *' "$copy/clear $copy/examples/case_e.sheet"
    expect 3 '' 'clear: the program failed: *' "$copy/clear --write $copy/examples/case_e.sheet"
    expect 3 '' 'clear: the program failed: *' "$copy/clear --quiet $copy/examples/case_e.sheet"
    expect 3 '' 'clear: the program failed: *' "$copy/clear --why $copy/examples/case_e.sheet"
done
# one that ends inside the page
for program in 'echo cut 6' 'echo cut 6; kill -9 $$' 'echo guest 1 loses: outbid; kill -9 $$'; do
    printf '#!/bin/sh\n%s\n' "$program" >"$copy/prebuilt/x86_64-linux/clear"
    for page in '' --quiet --why; do
        expect 3 '' 'clear: the program failed: *' "$copy/clear $page $copy/examples/case_e.sheet"
    done
done
# one that prints another page than was asked for
printf '#!/bin/sh\necho cut 6\n' >"$copy/prebuilt/x86_64-linux/clear"
expect 3 '' 'clear: the program failed: *' "$copy/clear --why $copy/examples/case_e.sheet"
printf '#!/bin/sh\necho guest 1 loses: outbid\n' >"$copy/prebuilt/x86_64-linux/clear"
expect 3 '' 'clear: the program failed: *' "$copy/clear $copy/examples/case_e.sheet"
expect 3 '' 'clear: the program failed: *' "$copy/clear --quiet $copy/examples/case_e.sheet"
# one that stops inside the sheet, and one that writes a text
for program in "head -c 20 $root/examples/case_e.sheet; kill -9 \$\$" 'echo cut 6'; do
    printf '#!/bin/sh\n%s\n' "$program" >"$copy/prebuilt/x86_64-linux/clear"
    expect 3 '' 'clear: the program failed: *' "$copy/clear --write $copy/examples/case_e.sheet"
done
echo '// another text' >>"$copy/crates/clear/src/main.rt"
no_kit='PATH=/usr/bin:/bin'
if ! PATH=/usr/bin:/bin command -v rt >/dev/null; then
    expect 3 '' 'clear: the sources are not those of prebuilt/*' "$no_kit $copy/clear $copy/examples/case_e.sheet"
fi
expect 2 '' 'clear: no such file: nofile' "$copy/clear nofile"
# a kit whose build fails, and one that builds
mkdir "$work/kit"
printf '#!/bin/sh\necho refused >&2\nexit 1\n' >"$work/kit/rt"
chmod +x "$work/kit/rt"
status=0
PATH=$work/kit:$PATH "$copy/clear" "$copy/examples/case_e.sheet" >"$work/out" 2>"$work/err" || status=$?
[ "$status" = 3 ] && [ ! -s "$work/out" ] && [ "$(wc -l <"$work/err")" = 2 ]
grep -q '^clear: building the engine' "$work/err"
grep -q '^clear: the build failed; log in' "$work/err"
grep -q refused "$copy/target/build.log"
tests=$((tests + 1))

echo "./clear: $tests tests, all as expected"
