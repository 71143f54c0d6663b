#!/usr/bin/env bash
# What compiling costs: for each kind of source that bench/sources.py writes, 500, 1,000 and 2,000 cards, the best time of ROUNDS runs
# and, where valgrind is there, the instructions: of `rpg2 compile`, which of a sheet whose last card can't be read is reading alone, and
# of `rpg2 check` where nearly each card has a fault. Its status is 1 where compiling 2,000 cards takes more than 20 ms, or more than 2.3
# times the instructions of 1,000. Checking is only printed: docs/develop/SPEED.md has where it grows faster.
set -euo pipefail

top=$(cd "$(dirname "$0")/.." && pwd)
rpg2=${RPG2:-$top/crates/rpg2/out/rpg2}
rounds=${ROUNDS:-5}
kinds=${KINDS:-names literals both constants plain labels groups group calls entries levels data decks
    no-files no-uses no-data no-labels no-ends $(printf 'FAULT-%s ' {1..18})SHEET-H SHEET-F SHEET-E SHEET-I SHEET-C SHEET-O SHEET-D}

work=$(mktemp -d)
trap 'rm -rf "$work"' EXIT

# The words for a source of a kind.
words_of() {
    case $1 in
        no-* | FAULT-*) echo check "$work/source" ;;
        *) echo compile "$work/source" "$work/object" ;;
    esac
}

# Whether the status is the one that a source of this kind has: 3 where it has faults.
is_status_of() {
    case $1 in
        no-* | FAULT-* | SHEET-*) [ "$2" = 3 ] ;;
        *) [ "$2" = 0 ] ;;
    esac
}

# The best time in microseconds, of a kind's source by these words.
time_of() {
    local kind=$1 best= start end ended
    shift
    for ((round = 0; round < rounds; round++)); do
        start=${EPOCHREALTIME/./} ended=0
        "$rpg2" "$@" > "$work/line" 2> "$work/told" || ended=$?
        end=${EPOCHREALTIME/./}
        is_status_of "$kind" "$ended" || return 1
        if [ -z "$best" ] || ((end - start < best)); then best=$((end - start)); fi
    done
    echo "$best"
}

instructions_of() {
    if command -v valgrind > /dev/null; then
        valgrind --tool=callgrind --callgrind-out-file=/dev/null --log-file="$work/counted" "$rpg2" "$@" > "$work/line" 2> "$work/told" ||
            true
        sed -n 's/.*Collected : //p' "$work/counted"
    else
        echo 0
    fi
}

status=0
printf '%-10s %6s %12s %14s\n' source cards microseconds instructions
for kind in $kinds; do
    before=0
    for cards in 500 1000 2000; do
        "$top/bench/sources.py" "$kind" "$cards" > "$work/source"
        read -r -a words <<< "$(words_of "$kind")"
        took=$(time_of "$kind" "${words[@]}")
        steps=$(instructions_of "${words[@]}")
        printf '%-10s %6d %12d %14d\n' "$kind" "$cards" "$took" "$steps"
        if [ "${words[0]}" = compile ] && ((took > 20000 || cards == 2000 && steps * 10 > before * 23)); then status=1; fi
        before=$steps
    done
done
exit $status
