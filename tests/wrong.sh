#!/usr/bin/env bash
# The test of the tests: compare must find every fault of wrong_engine.c and of wrong_program, and none without a fault.
# Takes the folder with the real library and program.
set -euo pipefail
cd -- "$(dirname -- "$(readlink -f -- "$0")")/.."

real=$(readlink -f -- "$1")
wrong=$PWD/target/wrong
seed=20261115
rm -rf "$wrong"
mkdir -p "$wrong"
(cd "$wrong" && ar x "$real/libbay_market.a")
read -ra functions <<<"$(scripts/exports --names)"
for function in "${functions[@]}"; do
    objcopy --redefine-sym "bay_market_$function=real_bay_market_$function" "$wrong/bay_market.o"
done
gcc -std=c11 -O1 -Wall -Wextra -Werror -fPIC -Iinclude -c tests/wrong_engine.c -o "$wrong/wrong_engine.o"
ar rcs "$wrong/libbay_market.a" "$wrong/wrong_engine.o" "$wrong/bay_market.o"
BAY_MARKET_LIB_DIR=$wrong cargo build --offline --locked --quiet --release --manifest-path rust/Cargo.toml \
    --target-dir "$wrong/cargo" -p compare
compare=$wrong/cargo/release/compare

# finds FAULT WORDS PART [WAY]: the part, by the way, is to tell of the fault in these words, or of a written guard
finds() {
    printf '%s\0' "$1" "$2" "$3" "${4-}" >>"$wrong/faults"
}
found_by() { # FAULT WORDS PART WAY
    local status=0 said
    said=$(mktemp "$wrong/said.XXXXXX")
    BAY_MARKET_FAULT=$1 timeout 60 "$compare" "$seed" "$3" ${4:+"$4"} >"$said" 2>&1 || status=$?
    if { [ $status != 1 ] && [ $status != 101 ]; } || ! grep -Eq "$2|wrote beside lent memory" "$said"; then
        echo "the fault '$1' is not found by $3 $4: status $status" >&2
        tail -n 3 "$said" >&2
        return 255
    fi
    rm "$said"
}

for part in read write trip read_csv csv_trip place_bids join gates clear clear_efficient explain facts try rows \
    menu gains lists clear_marked mark passes charge_marks post truth truth_efficient; do
    BAY_MARKET_FAULT='' "$compare" $seed $part >/dev/null
done
# what has the faults of comma-separated markets, of efficient clearing, of telling, of trying, of listing and of marking
# is right without one
BAY_MARKET_FAULT='read_csv own' "$compare" $seed read_csv >/dev/null
BAY_MARKET_FAULT='clear_efficient own' "$compare" $seed clear_efficient >/dev/null
BAY_MARKET_FAULT='explain own' "$compare" $seed explain >/dev/null
BAY_MARKET_FAULT='explain own' "$compare" $seed facts >/dev/null
BAY_MARKET_FAULT='try own' "$compare" $seed try >/dev/null
BAY_MARKET_FAULT='try own' "$compare" $seed rows >/dev/null
BAY_MARKET_FAULT='menu own' "$compare" $seed menu >/dev/null
BAY_MARKET_FAULT='menu own' "$compare" $seed lists >/dev/null
BAY_MARKET_FAULT='gains own' "$compare" $seed gains >/dev/null
BAY_MARKET_FAULT='gains own' "$compare" $seed lists >/dev/null
BAY_MARKET_FAULT='clear_marked own' "$compare" $seed clear_marked >/dev/null
BAY_MARKET_FAULT='clear_marked own' "$compare" $seed passes >/dev/null
BAY_MARKET_FAULT='mark own' "$compare" $seed mark >/dev/null
BAY_MARKET_FAULT='mark own' "$compare" $seed passes >/dev/null

# what a function only reads, what it fills, the numbers that it gives
lists() { scripts/exports --parts slice "$1"; }
filled() { scripts/exports --parts lent "$1"; }
numbers() { scripts/exports --parts out "$1"; }
# the types that own what guests are told take no other code, station, charge, reason, change or mark than there is
no_such='the engine gave'
for function in "${functions[@]}"; do
    for way in c slices owned; do
        finds "$function answer" "differs|$no_such" "$function" $way
        finds "$function number" 'differs' "$function" $way
        for part in $(filled "$function") $(numbers "$function"); do
            finds "$function $part first accepted" "differ|$no_such" "$function" $way
        done
    done
    for part in $(lists "$function") $(filled "$function"); do
        for place in first last before after; do
            for answer in accepted refused; do
                finds "$function $part $place $answer" 'differ|written|wrote' "$function" c
                finds "$function $part $place $answer" 'differ|written|wrote' "$function" slices
            done
        done
    done
    for part in $(numbers "$function"); do
        for place in first before after; do
            finds "$function $part $place refused" 'differ|wrote' "$function" c
        done
        finds "$function $part before accepted" 'differ' "$function" c
        finds "$function $part after accepted" 'differ' "$function" c
    done
done
# faults of a writer; what owns its output knows no other length than the largest sheet's
for way in c slices; do
    finds 'write past' 'follows it, differs' write $way
    finds 'write early' 'answered 14, expected' write $way
done
for way in c slices owned; do
    finds 'write fit' 'answered 14, expected 0|owned sheet differs' write $way
    finds 'write empty' 'differs' write $way
    finds 'write second' 'differs' write $way
    finds 'write empty' 'answered 19, expected 0' trip $way
    finds 'write second' 'the second writing differs' trip $way
    finds 'write answer' 'answered 5, expected 0' trip $way
    finds 'read amounts first accepted' 'differs' trip $way
    finds 'read second' 'the second reading differs' trip $way
    finds 'read empty' 'answered [0-9]+, expected 19|owned market differs' read $way
    finds 'read empty-late' 'answered [134], expected 19|owned market differs' read $way
done
# faults of comma-separated markets; the types that own their lists make the tables
for way in c slices owned; do
    for fault in swapped transposed; do
        finds "read_csv $fault" '(bids|tickets|amounts) differ|owned market differs' read_csv $way
        finds "read_csv $fault" 'what was read differs from the market' csv_trip $way
    done
    # the fault, what it answers and what is right
    while read -r fault answered expected; do
        finds "read_csv $fault" "answered $answered, expected $expected|owned market differs" read_csv $way
    done <<'END'
eleven [0-9]+ 23
wide [0-9]+ 23
narrow 23 [0-9]+
zeros 22 [0-9]+
empty-field [0-9]+ 22
empty-bid 22 [0-9]+
extra [0-9]+ 22
short [0-9]+ 22
lf [0-9]+ 22
cr [0-9]+ 22
last [0-9]+ 22
blank [0-9]+ 22
nul [0-9]+ (2|22)
nobody 22 0
comma-41 22 2
late-41 [0-9]+ 2
count-first 2 23
shape-first 22 (2|23)
shape-count 22 2
guest-201 22 2
late-201 [0-9]+ 2
END
    for fault in narrow empty-bid; do
        finds "read_csv $fault" 'answered 2[23], expected 0' csv_trip $way
    done
    finds 'read_csv answer' 'answered 5, expected 0' csv_trip $way
done
# the types that own their lists lend tables of 0
for way in c slices; do
    finds 'read_csv kept' 'bids differ' read_csv $way
    finds 'read_csv kept' 'what was read differs from the market' csv_trip $way
done
finds 'read_csv list-late' 'answered (2|22|23), expected 10' read_csv c
for list in $(filled read_csv); do
    finds "read_csv $list long taken" 'answered 0, expected 10' read_csv c
    finds "read_csv $list short taken" 'answered 0, expected 10' read_csv c
done
# faults of tickets
for way in c slices owned; do
    for function in clear clear_efficient explain try menu gains clear_marked mark post; do
        finds "$function higher" 'differ' $function $way
    done
    for function in write clear clear_efficient explain try menu gains clear_marked mark post; do
        finds "$function equal" 'answered [0-9]+, expected 15|owned [a-z ]+ differs' $function $way
        finds "$function repeat-early" 'answered 15, expected 9|owned [a-z ]+ differs' $function $way
    done
    finds 'post repeat-late' 'answered 13, expected 15|owned ledger differs' post $way
    finds 'write order' 'differs' write $way
    for fault in place untouched; do
        finds "read $fault" 'tickets differ|owned market differs' read $way
        finds "read $fault" 'differs|answered 15, expected 0' trip $way
    done
    finds 'write order' 'what was written differs from the sheet' trip $way
done
for way in c slices; do
    finds 'write repeat-late' 'answered 14, expected 15' write $way
done
# faults of the rule; the types know no other rule than two
for function in clear clear_efficient explain try menu gains clear_marked mark post; do
    for way in c slices owned; do
        finds "$function first" 'differ|answered 0, expected 18' $function $way
        finds "$function second" 'differ' $function $way
    done
    finds "$function any" 'answered [0-9]+, expected 18' $function c
    finds "$function counts" 'answered 2, expected 18' $function c
done
# faults of the desk; the types know no desk above 7, and own as many last rounds as there are desks
for way in c slices owned; do
    finds 'post desk-one' 'answered 11, expected 0|last rounds differ|owned ledger differs' post $way
    finds 'post desk-next' 'last rounds differ|owned ledger differs' post $way
    finds 'post desk-kept' 'last rounds differ|owned ledger differs' post $way
done
for way in c slices; do
    finds 'post last long taken' 'answered 0, expected 13' post $way
    finds 'post last short taken' 'answered 0, expected 13' post $way
done
finds 'post desk-early' 'answered 25, expected 13' post c
finds 'post desk-late' 'answered 11, expected 25' post c
finds 'post desk-modulo' 'answered [0-9]+, expected 25' post c
# faults of efficient clearing
for way in c slices owned; do
    for fault in truthful rising far later skipped last unseated full no-floor untouched; do
        finds "clear_efficient $fault" 'differ' clear_efficient $way
    done
done
# faults of telling; the types that own their lists make them
for way in c slices owned; do
    for fault in cut-first open-first bid-late at-cut open seated excused bay lowest first-code told charge no-floor quiet \
        transposed untouched; do
        finds "explain $fault" "(codes|stations|charges|reasons) differ|owned explanation differs|$no_such" explain $way
    done
    for fault in cut-first open-first bid-late at-cut open; do
        finds "explain $fault" 'has code [0-9] at station [0-9]+, which is not so' facts $way
    done
    for fault in seated excused bay; do
        finds "explain $fault" "places are held at station|loses by 0|$no_such" facts $way
    done
    for fault in lowest first-code; do
        finds "explain $fault" 'loses by [0-9], and its highest code is [0-9]' facts $way
    done
    for fault in charge no-floor quiet; do
        finds "explain $fault" "is told station [0-9]+ charge [0-9]+, cleared|$no_such" facts $way
    done
    finds 'explain told' "wins at a place that is not held, or with reason|$no_such" facts $way
    finds 'explain higher' 'is told station|before a holder' facts $way
    finds 'explain transposed' 'which is not so|loses by|wins at a place' facts $way
    finds 'explain answer' 'answered 5, expected 0' facts $way
done
for way in c slices; do
    finds 'explain kept' 'stations differ' explain $way
    finds 'explain list-late' 'answered 6, expected 10' explain $way
    finds 'explain list-early' 'answered 10, expected 5' explain $way
    for list in codes stations charges reasons; do
        finds "explain $list long taken" 'answered 0, expected 10' explain $way
        finds "explain $list short taken" 'answered 0, expected 10' explain $way
    done
done
# faults of placing; the types that own their lists have both coordinates of a cell, and make the bid table
for way in c slices owned; do
    for fault in walk added wrapped transposed; do
        finds "place_bids $fault" 'bids differ' place_bids $way
    done
    finds 'place_bids grid' 'answered 0, expected 16|owned bids differ' place_bids $way
    finds 'place_bids stated' 'answered 0, expected 17|owned bids differ' place_bids $way
    finds 'place_bids price-early' 'answered 17, expected 16|owned bids differ' place_bids $way
    for list in prices falls; do
        finds "place_bids $list long taken" 'answered 0, expected 5|owned bids differ' place_bids $way
        finds "place_bids $list short taken" 'answered 0, expected 5|owned bids differ' place_bids $way
    done
done
for way in c slices; do
    for list in guest_second station_second bids; do
        finds "place_bids $list long taken" 'answered 0, expected 5' place_bids $way
        finds "place_bids $list short taken" 'answered 0, expected 5' place_bids $way
    done
done
# faults of joining; the types that own their lists make the joined tables
for way in c slices owned; do
    for fault in front last; do
        finds "join $fault" 'joined tables differ|owned market differs' join $way
    done
    finds 'join ticket' 'answered 0, expected 21|owned market differs' join $way
    finds 'join bays' 'answered [0-9]+, expected 20|owned market differs' join $way
    finds 'join asks' 'answered [0-9]+, expected 20|owned market differs' join $way
    finds 'join ticket-early' 'answered 21, expected 2|owned market differs' join $way
done
for way in c slices; do
    finds 'join crowd' 'answered [0-9]+, expected 2' join $way
    finds 'join list-early' 'answered 10, expected 21' join $way
    for list in $(filled join); do
        finds "join $list long taken" 'answered 0, expected 10' join $way
        finds "join $list short taken" 'answered 0, expected 10' join $way
    done
done
# faults of trying; the types that own their lists make the list of changes
for way in c slices owned; do
    for fault in exchanged larger unsigned clamped by-bids by-row price charge free unseated rules quiet next ticket; do
        finds "try $fault" '(gain|changes|answer) differs?' try $way
        finds "try $fault" 'the second gain is larger|the (gains|changes) are told as|others change' rows $way
    done
    for fault in turned itself moved shifted many; do
        finds "try $fault" 'changes differ|owned answer differs' try $way
        finds "try $fault" 'the changes are told as|others change' rows $way
    done
    finds 'try larger' 'the second gain is larger' rows $way
    finds 'try many' 'others change, and [0-9]+ places of the guest' rows $way
    finds 'try answer' 'answered 5, expected 0' rows $way
    for fault in zero over; do
        finds "try $fault" 'answered [0-9]+, expected 24|owned answer differs' try $way
    done
    for fault in worth bid; do
        finds "try $fault" 'answered 0, expected 9|owned answer differs' try $way
    done
    finds 'try guest-early' 'answered 24, expected 15|owned answer differs' try $way
    finds 'try guest-late' 'answered 5, expected 24|owned answer differs' try $way
    for list in worths row; do
        finds "try $list long taken" 'answered 0, expected 5|owned answer differs' try $way
        finds "try $list short taken" 'answered 0, expected 5|owned answer differs' try $way
    done
done
for way in c slices; do
    for fault in kept untouched; do
        finds "try $fault" 'changes differ' try $way
        finds "try $fault" 'the changes are told as|others change' rows $way
    done
    finds 'try list-early' 'answered 10, expected 5' try $way
    finds 'try price-early' 'answered 9, expected 10' try $way
    finds 'try changes long taken' 'answered 0, expected 10' try $way
    finds 'try changes short taken' 'answered 0, expected 10' try $way
done
# faults of price lists and gains; the types that own their lists make them
by_list='has place [01], a total of|and its price|is listed with|by its list|moves with the guest'
for way in c slices owned; do
    for fault in no-ticket tie-won own-total bay last no-cut cut open no-bar closed bids exchanged shifted next; do
        finds "menu $fault" '(bars|prices|price list) differ' menu $way
        finds "menu $fault" "$by_list" lists $way
    done
    for fault in by-row by-bids higher-seat first-seat worth-seat at-price price free clamped unsigned unseated shifted \
        same transposed more; do
        finds "gains $fault" 'gains differ' gains $way
        finds "gains $fault" 'where it is tried|and the worths' lists $way
    done
    for function in menu gains; do
        finds "$function answer" 'answered 5, expected 0' lists $way
        for fault in zero over; do
            finds "$function $fault" 'answered [0-9]+, expected 24|owned [a-z ]+ differs' $function $way
        done
        finds "$function guest-early" 'answered 24, expected 15|owned [a-z ]+ differs' $function $way
    done
    for fault in worth bid; do
        finds "gains $fault" 'answered 0, expected 9|owned list of gains differs' gains $way
    done
    finds 'gains guest-late' 'answered 5, expected 24|owned list of gains differs' gains $way
    finds 'gains part' 'answered 0, expected 5|owned list of gains differs' gains $way
    finds 'gains worths long taken' 'answered 0, expected 5|owned list of gains differs' gains $way
    finds 'gains worths short taken' 'answered 0, expected 5|owned list of gains differs' gains $way
    finds 'gains rows long taken' 'answered 0, expected 5|owned list of gains differs' gains $way
    finds 'try second' 'where it is tried' lists $way
    finds 'clear_marked bay' 'has place 1, a total of' lists $way
done
for way in c slices; do
    for fault in untouched kept; do
        finds "menu $fault" '(bars|prices) differ' menu $way
        finds "menu $fault" "$by_list" lists $way
    done
    finds 'gains untouched' 'gains differ' gains $way
    finds 'gains untouched' 'where it is tried|and the worths' lists $way
    for fault in guest-late list-early; do
        finds "menu $fault" 'answered 10, expected 24' menu $way
    done
    for list in bars prices; do
        finds "menu $list long taken" 'answered 0, expected 10' menu $way
        finds "menu $list short taken" 'answered 0, expected 10' menu $way
    done
    finds 'gains list-early' 'answered 10, expected 5' gains $way
    finds 'gains price-early' 'answered 9, expected 10' gains $way
    finds 'gains gains long taken' 'answered 0, expected 10' gains $way
    finds 'gains gains short taken' 'answered 0, expected 10' gains $way
done
# faults of a clearing's places and floors; the types that own their lists make them
for way in c slices owned; do
    for fault in seated excused bay tied two inverted transposed; do
        finds "clear_marked $fault" 'places differ|owned full clearing differs' clear_marked $way
        finds "clear_marked $fault" 'guest [0-9]+ has place [0-9]+ and' passes $way
    done
    for fault in closed above below holder second-out full unseated price cut no-floor shifted; do
        finds "clear_marked $fault" 'floors differ|owned full clearing differs' clear_marked $way
        finds "clear_marked $fault" 'the floor of station [0-9]+ is' passes $way
    done
    finds 'clear_marked quiet' '(margin|stations|charges) differs?|owned full clearing differs' clear_marked $way
    finds 'clear_marked quiet' 'the results differ from the clearing' passes $way
    finds 'clear_marked higher' 'the results differ from the clearing|guest [0-9]+ has place' passes $way
    finds 'clear_marked answer' 'answered 5, expected 0' passes $way
    for fault in seated excused bay tied inverted transposed above below holder second-out full unseated price cut \
        no-floor shifted higher; do
        finds "clear_marked $fault" 'guest [0-9]+ has (place [01] \(|a charge of)' charge_marks $way
    done
    finds 'clear_marked answer' 'answered 5, expected 0' charge_marks $way
done
for way in c slices; do
    for fault in untouched kept; do
        finds "clear_marked $fault" 'places differ' clear_marked $way
        finds "clear_marked $fault" 'has place [0-9]+ and|the floor of station [0-9]+ is' passes $way
    done
    finds 'clear_marked kept-floor' 'floors differ' clear_marked $way
    finds 'clear_marked kept-floor' 'the floor of station [0-9]+ is' passes $way
    finds 'clear_marked list-late' 'answered 6, expected 10' clear_marked $way
    finds 'clear_marked list-early' 'answered 10, expected 5' clear_marked $way
    for list in $(filled clear_marked); do
        finds "clear_marked $list long taken" 'answered 0, expected 10' clear_marked $way
        finds "clear_marked $list short taken" 'answered 0, expected 10' clear_marked $way
    done
done
# faults of marking; who hands in makes the lists, by any way
handed='stations charges sold paid places floors'
for way in c slices owned; do
    for fault in truthy low-bit closed elsewhere unseated either turned always never; do
        finds "mark $fault" 'mark differs' mark $way
        finds "mark $fault" 'is marked (true|false)' passes $way
    done
    for thing in $handed cut margin; do
        for fault in skipped low; do
            finds "mark $thing $fault" 'mark differs' mark $way
            finds "mark $thing $fault" 'is marked true' passes $way
        done
    done
    for list in $handed; do
        for fault in 'first unseen' 'last unseen' sum parity; do
            finds "mark $list $fault" 'mark differs' mark $way
            finds "mark $list $fault" 'is marked true' passes $way
        done
        finds "mark $list long taken" 'answered 0, expected 10|owned mark differs' mark $way
        finds "mark $list short taken" 'answered 0, expected 10|owned mark differs' mark $way
    done
    finds 'mark place-refused' 'answered 10, expected 0|owned mark differs' mark $way
    finds 'mark place-refused' 'answered 10, expected 0' passes $way
    finds 'mark yes-two' "the mark differs|$no_such" mark $way
    finds 'mark yes-two' "the mark is 2|$no_such" passes $way
    finds 'mark list-late' 'answered 6, expected 10|owned mark differs' mark $way
    finds 'mark list-early' 'answered 10, expected 5|owned mark differs' mark $way
    finds 'mark answer' 'answered 5, expected 0' passes $way
done
for way in c slices; do
    finds 'mark mended' 'what is handed in was written' mark $way
done
# what is over slices makes the number that is written
finds 'mark cleared' 'a refused call wrote' mark c
finds 'mark kept' 'the mark differs' mark c
finds 'mark kept' 'the mark is 77' passes c
finds 'clear charges first accepted' 'the results differ from the clearing' passes
finds 'explain seated' 'guest [0-9]+ has place 1 and' passes
finds 'explain seated' 'others change, and [0-9]+ places of the guest' rows
finds 'clear bid' 'the gains are told as' rows
finds 'clear higher' 'the (gains|changes) are told as' rows
finds 'explain seated' 'holds a place that joining gave|is charged less' gates
finds 'join front' 'holds a place that joining gave|is charged less' gates
finds 'clear bid' 'guest [0-9]+ gains by' truth
finds 'clear ask' 'station [0-9]+ gains by' truth
finds 'clear charges first accepted' 'charge' truth
finds 'clear sold first accepted' 'sold other kWh' truth
finds 'clear_efficient ask' 'station [0-9]+ gains by' truth_efficient
finds 'clear_efficient truthful' 'the true and the false row gain \[1, 1\], expected \[0, 1\]' truth_efficient
finds 'clear_efficient bid' 'the true and the false row gain \[0, 0\], expected \[0, 1\]' truth_efficient
finds 'clear_efficient rising' 'guest [0-9]+ is charged above its bid|loses its seat' truth_efficient
finds 'clear_efficient full' 'station [0-9]+ is beyond its bays' truth_efficient
finds 'clear_efficient charges first accepted' 'charge' truth_efficient
finds 'clear_efficient sold first accepted' 'sold other kWh' truth_efficient

export BAY_MARKET_PROGRAM=$PWD/tests/wrong_program BAY_MARKET_REAL=$real/clear
BAY_MARKET_FAULT='' "$compare" $seed print >/dev/null
for fault in text refusal repeat stderr line status quiet truthful rule sheet byte refused-sheet repeat-sheet why \
    why-rule why-refusal why-clearing why-empty silent; do
    finds $fault 'differs' print
done
BAY_MARKET_FAULT='' "$compare" $seed print_csv >/dev/null
for fault in csv-sheet csv-page csv-write csv-text csv-refusal csv-cut csv-lines; do
    finds $fault 'differs' print_csv
done
status=0
"$compare" $seed nothing >/dev/null 2>&1 || status=$?
[ $status = 2 ]
# each fault by itself, as many at a time as there are processors; the first that is not found ends the test
export compare seed wrong
export -f found_by
xargs -0 -n 4 -P "$(nproc)" bash -c 'found_by "$@"' found_by <"$wrong/faults"
echo "wrong engine and program: $(($(tr -cd '\0' <"$wrong/faults" | wc -c) / 4)) faults, all found"
