#!/usr/bin/env bash
# Compiles, lists, verifies, runs and converts with each of its allocations refused in turn: the answer must be `no memory`, status 1. Nothing is
# written by a compilation or a conversion, and of a run's print a first part. Then jobs, cycle by cycle, by the cases of rpg_show_cases: one that ran out
# of memory has failed from then on. Last a disk that is full, where an old object stays. Both programs must be built: by `make`
# and by `rt run` in crates/rpg_show_cases, or named by RPG2 and RPG_SHOW_CASES. tests/lay_out.py lays the cases out.
set -euo pipefail

top=$(cd "$(dirname "$0")/.." && pwd)
rpg2=${RPG2:-$top/crates/rpg2/out/rpg2}
cases=${RPG_SHOW_CASES:-$top/crates/rpg_show_cases/out/rpg_show_cases}
work=$(mktemp -d)
trap 'rm -rf "$work"' EXIT

cat > "$work/refuse.c" <<'PROGRAM'
#define _GNU_SOURCE
#include <dlfcn.h>
#include <errno.h>
#include <stdlib.h>

static long wanted = -1, calls = 0;

static int is_refused(void) {
    if (wanted < 0) {
        const char *text = getenv("REFUSED");
        wanted = text ? atol(text) : 0;
    }
    return ++calls == wanted;
}

void *malloc(size_t size) {
    static void *(*real)(size_t);
    if (!real) real = dlsym(RTLD_NEXT, "malloc");
    if (is_refused()) { errno = ENOMEM; return 0; }
    return real(size);
}

void *realloc(void *old, size_t size) {
    static void *(*real)(void *, size_t);
    if (!real) real = dlsym(RTLD_NEXT, "realloc");
    if (is_refused()) { errno = ENOMEM; return 0; }
    return real(old, size);
}

int posix_memalign(void **out, size_t align, size_t size) {
    static int (*real)(void **, size_t, size_t);
    if (!real) real = dlsym(RTLD_NEXT, "posix_memalign");
    if (is_refused()) return ENOMEM;
    return real(out, align, size);
}

void *aligned_alloc(size_t align, size_t size) {
    static void *(*real)(size_t, size_t);
    if (!real) real = dlsym(RTLD_NEXT, "aligned_alloc");
    if (is_refused()) { errno = ENOMEM; return 0; }
    return real(align, size);
}
PROGRAM
cc -O1 -shared -fPIC -o "$work/refuse.so" "$work/refuse.c" -ldl

# Whether a file is as expected, or isn't there where nothing is expected.
is_as() {
    if [ -z "$2" ]; then [ ! -e "$1" ]; else cmp -s "$1" "$2"; fi
}

# Whether what was written is a first part of what is expected; an object program is whole or not there.
is_part() {
    if [ ! -s "$2" ]; then return 0; fi
    [ "$1" = run ] && cmp -s -n "$(stat -c %s "$2")" "$2" "$3"
}

# Refuses the allocations of a command in turn, until 100 runs are served one after the other. A served run prints this line and
# writes this file as expected.
refuse() {
    local command=$1 wanted=$2 written=$3 expected=$4
    local refused=0 served=0 nth line status
    for ((nth = 1; served < 100; nth++)); do
        rm -f "$written"
        status=0
        line=$(REFUSED=$nth LD_PRELOAD=$work/refuse.so "$rpg2" "${@:5}" 2> "$work/told") || status=$?
        if [ "$line" = "$wanted" ] && [ "$status" = 0 ] && is_as "$written" "$expected"; then
            served=$((served + 1))
            continue
        fi
        served=0
        if [ "$line" != "no memory" ] || [ "$status" != 1 ] || ! is_part "$command" "$written" "$expected"; then
            echo "$command, allocation $nth refused: '$line', status $status"
            exit 1
        fi
        refused=$((refused + 1))
    done
    echo "$command: $refused allocations refused in turn, no memory, status 1, nothing or a first part written"
}

stock=$top/examples/stock
total=$top/examples/total

# A search in alternating tables with data on a card.
cat > "$work/search.rpg" <<'SOURCE'
     FINPUT   IPE F      80            READ40
     FPRINT   O   F     120            PRINTER
     E                    TABA    3   3  2 0ATABB    1
     IINPUT   AA  01
     I                                        1   20X
     C           X         LOKUPTABA      TABB       21  22
     OPRINT   D        01
     O                         TABB       1
     O                 21                 3 'H'
     O                 22                 3 'E'
**
10A20B30C
SOURCE
printf '20\n15\n35\n05\n' > "$work/search.txt"
printf 'B E\nB H\nB\nA H\n' > "$work/search.expected"

# Refuses the allocations of a command in turn, until 100 runs are served one after the other: status 0 comes only with all that it prints,
# and its usual status, if it is another one, with all of it or a message that a diagnostic is lost.
keep_told() {
    local refused=0 served=0 nth status usual=0
    local wanted=$work/wanted printed=$work/printed
    "$rpg2" "$@" > "$wanted" 2>&1 || usual=$?
    for ((nth = 1; served < 100; nth++)); do
        status=0
        REFUSED=$nth LD_PRELOAD=$work/refuse.so "$rpg2" "$@" > "$printed" 2>&1 || status=$?
        if [ "$status" = "$usual" ] && cmp -s "$wanted" "$printed"; then
            served=$((served + 1))
            continue
        fi
        if [ "$status" = 0 ] || [ "$status" = "$usual" ] && ! grep -q 'a diagnostic is lost' "$printed"; then
            echo "$*, allocation $nth refused: status $status, and something isn't printed"
            exit 1
        fi
        served=0
        refused=$((refused + 1))
    done
    echo "$1: $refused allocations refused in turn, and status $usual only with all that is printed"
}

# Subroutines that call one another.
cat > "$work/calls.rpg" <<'SOURCE'
     FINPUT   IPE F      80            READ40
     FPRINT   O   F     120            PRINTER
     IINPUT   AA  01
     C                     EXSR SA
     CSR         SA        BEGSR
     CSR                   EXSR SB
     CSR                   ENDSR
     CSR         SB        BEGSR
     CSR                   EXSR SC
     CSR                   ENDSR
     CSR         SC        BEGSR
     CSR         K         ADD  1         K       10
     CSR                   GOTO OUT
     CSR         K         ADD  5         K
     CSR         OUT       ENDSR
     OPRINT   D        01
     O                         K          1
SOURCE

# Two control levels.
cat > "$work/levels.rpg" <<'SOURCE'
     FINPUT   IPE F      80            READ40
     FPRINT   O   F     120            PRINTER
     IINPUT   AA  01
     I                                        1   1 G2    L2
     I                                        2   2 G1    L1
     I                                        1   3 REC
     OPRINT   D        01
     O                         REC        3
     O        T        L1
     O                                    2 'T1'
     O        T        L2
     O                                    2 'T2'
SOURCE
printf 'AX1\nBX2\n' > "$work/levels.txt"
printf 'AX1\nT1\nT2\nBX2\nT1\nT2\n' > "$work/levels.expected"

# A loop of four rounds.
cat > "$work/loop.rpg" <<'SOURCE'
     FINPUT   IPE F      80            READ40
     FPRINT   O   F     120            PRINTER
     IINPUT   AA  01
     C           AGAIN     TAG
     C           N         ADD  1         N       10
     C           N         COMP 4                      20
     C   20                GOTO AGAIN
     OPRINT   D        01
     O                         N          1
SOURCE
printf 'X\n' > "$work/loop.txt"
printf '4\n' > "$work/loop.expected"

for name in search calls levels loop; do
    "$rpg2" compile "$work/$name.rpg" "$work/$name.obj" --allowance 3 > "$work/line"
done
"$rpg2" compile "$stock/stock.rpg" "$work/stock.obj" --allowance 20 > "$work/line"

for name in search calls; do
    refuse compile "compiled" "$work/refused.obj" "$work/$name.obj" compile "$work/$name.rpg" "$work/refused.obj" --allowance 3
done
refuse compile "compiled" "$work/refused.obj" "$work/stock.obj" compile "$stock/stock.rpg" "$work/refused.obj" --allowance 20
refuse verify "accepted, bound 12" "$work/unwritten" "" verify "$work/calls.obj"
refuse run "end of job, cycles 3, steps 5 of 5" "$work/print" "$total/total.expected" \
    run "$total/total.obj" "$total/amounts.txt" "$work/print" --date 010576
refuse run "end of job, cycles 3, steps 11 of 11" "$work/print" "$work/levels.expected" \
    run "$work/levels.obj" "$work/levels.txt" "$work/print" --date 010576
refuse run "end of job, cycles 2, steps 17 of 18" "$work/print" "$work/loop.expected" \
    run "$work/loop.obj" "$work/loop.txt" "$work/print" --date 010576
refuse run "end of job, cycles 5, steps 9 of 9" "$work/print" "$work/search.expected" \
    run "$work/search.obj" "$work/search.txt" "$work/print" --date 010576

# The source in place of its object; records to lines and back, rows to lines and back; and a print as a PDF.
stockval=$top/examples/stockval
refuse go "end of job, cycles 28, steps 98 of 203" "$work/print" "$stock/stock.expected" \
    go "$stock/stock.rpg" "$stock/moves.txt" "$work/print" --date 010576 --disk "$work/disk" --allowance 20
convert() {
    local line
    line=$("$rpg2" "$1" "$2" "$work/whole" "${@:3}")
    refuse "$1" "$line" "$work/converted" "$work/whole" "$1" "$2" "$work/converted" "${@:3}"
}
convert records "$stockval/stockval.ebc" --by "$stockval/stockval.rpg"
cp "$work/whole" "$work/lines"
convert records "$work/lines" --to "$stockval/stockval.rpg"
convert records "$top/examples/csv/sales.csv" --by "$top/examples/csv/regions.rpg" --csv --delimiter ';' --decimal , --group . \
    --columns region,,seller,pieces,price
cp "$work/whole" "$work/lines"
convert records "$work/lines" --by "$top/examples/csv/regions.rpg" --to-csv --file SALES
convert paper "$top/examples/sales/sales.expected"

# A listing, cards of shorthand, and shorthand of cards, each whole or not there.
"$rpg2" cards --short "$work/search.rpg" > "$work/search.short"
refuse list "$("$rpg2" list "$work/search.rpg")" "$work/unwritten" "" list "$work/search.rpg"
refuse cards "$("$rpg2" cards "$work/search.short")" "$work/unwritten" "" cards "$work/search.short"
refuse cards "$("$rpg2" cards --short "$work/search.rpg")" "$work/unwritten" "" cards --short "$work/search.rpg"

# Diagnostics of commands that end well: changes, warnings, and what a job does.
keep_told fit "$top/examples/taxes/taxes.old.rpg" "$work/new.rpg" --force --table "BRACKET=$top/examples/taxes/brackets.txt"
keep_told check "$work/calls.rpg" "$work/loop.rpg"
sed 's/ADD  1 /ADD  L /' "$work/loop.rpg" > "$work/faulty.rpg"
keep_told check "$work/faulty.rpg"
keep_told run "$work/levels.obj" "$work/levels.txt" "$work/print" --trace 9 --watch --sorted
keep_told run "$work/levels.obj" "$work/levels.txt" "$work/print" --trace-record 2 --format json

# A source with a warning that is denied: it never compiles, whatever is refused.
cat > "$work/warned.rpg" <<'SOURCE'
     FINPUT   IPE F      80            READ40
     FPRINT   O   F     120            PRINTER
     IINPUT   AA
     I                                        1   5 TEXT
     OPRINT   D
     O                         TEXT       5
SOURCE
refused=0 served=0
for ((nth = 1; served < 100; nth++)); do
    status=0
    REFUSED=$nth LD_PRELOAD=$work/refuse.so "$rpg2" compile "$work/warned.rpg" "$work/warned.obj" --deny > "$work/line" 2> "$work/told" || status=$?
    if [ "$status" = 0 ] || [ -e "$work/warned.obj" ]; then
        echo "compile --deny, allocation $nth refused: status $status"
        exit 1
    fi
    if [ "$status" = 3 ]; then served=$((served + 1)); else served=0; refused=$((refused + 1)); fi
done
echo "compile --deny: $refused allocations refused in turn, and the source never passed"

# A cycle that writes 9 MB is reported within the memory in which the job runs.
cat > "$work/large.rpg" <<'SOURCE'
     FIN      IPE F       3            DISK
     FPRINT   O   F      20            PRINTER
     FOUT     O   F    9999            DISK
     IIN      AA  01
     I                                        1   30N
     C           AGAIN     TAG
     C                     EXCPT
     C           N         SUB  1         N
     C           N         COMP 0                    20
     C   20                GOTO AGAIN
     OPRINT   D        01
     O                         N          3
     OOUT     E        01
     O                                    1 'A'
     O                                 9999 'Z'
SOURCE
"$rpg2" compile "$work/large.rpg" "$work/large.obj" > "$work/line"
echo 900 > "$work/large.txt"
status=0
(ulimit -v 24000; "$rpg2" run "$work/large.obj" "$work/large.txt" "$work/print" --disk /dev/null --trace 1 -q) 2> "$work/told" || status=$?
if [ "$status" != 0 ] || [ "$(wc -l < "$work/told")" != 903 ]; then
    echo "a trace of 9 MB: status $status, $(wc -l < "$work/told") lines"
    exit 1
fi
echo "a trace of 9 MB: within 24 MB"

# An object program that writes a disk file and then prints.
expected=$stock/stock.expected
for written in print disk; do
    refuse run "end of job, cycles 28, steps 98 of 203" "$work/$written" "$expected" \
        run "$work/stock.obj" "$stock/moves.txt" "$work/print" --date 010576 --disk "$work/disk"
    expected=$stock/balance.expected
done

# What rpg_show_cases reports of a job, cycle by cycle, with an allocation refused.
job_told() {
    { REFUSED=$2 LD_PRELOAD=$work/refuse.so "$cases" "$work/$1.rows" 2> "$work/line" || true; } |
        sed -n "s/^$1: //p"
}

# Refuses the allocations of a job in turn, until 100 runs in a row end as without one. If a cycle runs out of memory, each one after it
# returns that the job has failed. If the program of cases itself runs out of it, nothing is reported.
refuse_job() {
    local name=$1
    local refused=0 failed=0 served=0 nth wanted told
    "$top/tests/lay_out.py" "$rpg2" "$work/$name.cases" > "$work/$name.rows"
    wanted=$(job_told "$name" 0)
    if [[ ! "$wanted" =~ "; end of job" ]]; then
        echo "job of $name: '$wanted'"
        exit 1
    fi
    for ((nth = 1; served < 100; nth++)); do
        told=$(job_told "$name" "$nth")
        if [ "$told" = "$wanted" ]; then
            served=$((served + 1))
            continue
        fi
        served=0
        refused=$((refused + 1))
        if [[ "$told" =~ "; no memory"(.*)$ ]]; then
            failed=$((failed + 1))
            if [[ ! "${BASH_REMATCH[1]}" =~ ^("; failed"(", steps "[0-9]+)?(", "[0-9]+" bytes")?){2,}$ ]]; then
                echo "job of $name, allocation $nth refused: '$told'"
                exit 1
            fi
        elif [ -n "$told" ] && [ "$told" != "no memory" ]; then
            echo "job of $name, allocation $nth refused: '$told'"
            exit 1
        fi
    done
    if [ "$failed" = 0 ]; then
        echo "job of $name: no cycle wanted memory"
        exit 1
    fi
    echo "job of $name: $refused allocations refused in turn, $failed of them in a cycle, and then it answered that it has failed"
}

# A case of a source of this script and its input.
job_of_source() {
    {
        echo "=== $1"
        echo "--- source"
        cat "$work/$1.rpg"
        echo "--- allowance 3"
        echo "--- input"
        cat "$work/$1.txt"
        echo "--- cycles -"
    } > "$work/$1.cases"
    refuse_job "$1"
}

{
    echo "=== total"
    echo "--- object"
    od -An -v -tx1 "$total/total.obj"
    echo "--- input"
    cat "$total/amounts.txt"
    echo "--- cycles -"
} > "$work/total.cases"
refuse_job total
for name in levels loop search; do
    job_of_source "$name"
done

# A disk that takes nothing more: an old object stays, and where there was none there is none.
cp "$work/calls.obj" "$work/full.obj"
for written in full.obj new.obj; do
    status=0
    line=$(trap '' XFSZ; ulimit -f 0; "$rpg2" compile "$work/search.rpg" "$work/$written") || status=$?
    if [ "$line" != "output failed" ] || [ "$status" != 1 ]; then
        echo "a full disk: '$line', status $status"
        exit 1
    fi
done
if ! cmp -s "$work/calls.obj" "$work/full.obj" || [ -n "$(find "$work" -name 'new.obj*' -o -name '*.new')" ]; then
    echo "a full disk: the object is another"
    exit 1
fi
echo "a full disk: output failed, status 1, and the object that stood there stays"
