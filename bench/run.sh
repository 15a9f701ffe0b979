#!/usr/bin/env bash
# The benchmark: puts hard questions to the proved program and to a hand-tuned C program of the same search, holds their replies to be the
# same, and prints the time of each and the ratio. A measurement, not a test. It needs the kit (rt), a C compiler and a machine that is x86-64.
set -eu
cd "$(dirname "$0")/.."
bench=$PWD/bench
room=$(mktemp -d)
trap 'rm -rf "$room"' EXIT

# The program `asked` is proved and built in a repository of its own, so that the gate has nothing to do with it; its files are kept under
# names that end in .txt because the gate refuses a Rattle file that stands in no listed crate.
git ls-files -z crates | tar -cf - --null -T - | tar -xf - -C "$room"
{ cat crates.txt; echo "asked: input absences crews roster"; } >"$room/crates.txt"
(cd bench && find asked -name '*.txt') | while IFS= read -r file; do
    mkdir -p "$room/crates/$(dirname "$file")"
    cp "bench/$file" "$room/crates/${file%.txt}"
done
cd "$room"
git init -q .
(cd crates/asked && rt run) >check.log 2>&1 </dev/null || { grep '^rt:' check.log; exit 1; }

cc=gcc
"$cc" -O3 -march=x86-64 -Wall -Wextra -o baseline "$bench/baseline.c"
gcc -O2 -Wall -Wextra -o cases "$bench/cases.c"

# The processor time of one run on the case, in milliseconds; the reply is left in the file REPLY.
TIMEFORMAT=%U
spent() { # PROGRAM REPLY
    local seconds
    seconds=$({ time "$1" <case >"$2"; } 2>&1)
    echo $((10#${seconds/./}))
}

# One case, described to `cases` by the words that follow its name: the shortest of nine runs of each program, taken in turn so that a busy
# machine slows both. The bar is the ratio that it is held against.
words=(yes no undecided crews none refused)
compare() { # BAR NAME WORDS...
    local bar=$1 name=$2 c='' ours='' now ratio verdict units
    shift 2
    ./cases "$@" >case
    for _ in 1 2 3 4 5 6 7 8 9; do
        now=$(spent ./baseline reply.c)
        if [ -z "$c" ] || [ "$now" -lt "$c" ]; then c=$now; fi
        now=$(spent crates/asked/out/asked reply.ours)
        if [ -z "$ours" ] || [ "$now" -lt "$ours" ]; then ours=$now; fi
    done
    if ! cmp -s reply.c reply.ours; then
        echo "$name: the replies differ"
        cat reply.c reply.ours
        exit 1
    fi
    ratio=$((ours * 100 / (c > 0 ? c : 1)))
    read -r verdict units _ <reply.ours
    printf '%-38s %-6s %8d units, %5d times: %5d ms, C %4d ms, ratio %d.%02d (bar %d)\n' \
        "$name" "${words[verdict]}" "$units" "${!#}" "$ours" "$c" $((ratio / 100)) $((ratio % 100)) "$bar"
}

# seed, rows, roles (0: each row its own), permissions, chance in 100 of holding each, policy question?, s, d, t, edition, times
# Seed 126 is the worst known for half-filled crews that are handed on by value.
compare 3 "filling, d 8, t 4, seed 4" 4 60 0 10 15 0 0 8 4 1 10
compare 3 "filling, d 8, t 3, seed 33" 33 60 0 10 25 0 0 8 3 1 10
compare 3 "filling, d 8, t 5, seed 126" 126 60 0 10 20 0 0 8 5 1 10
compare 3 "filling, d 8, t 5, seed 40" 40 60 0 10 20 0 0 8 5 1 10
compare 3 "filling, d 8, t 5, seed 113" 113 60 0 10 20 0 0 8 5 1 10
compare 3 "filling, d 8, no limit, seed 368" 368 60 0 10 25 0 0 8 64 1 10
compare 3 "filling, d 8, no limit, seed 107" 107 60 0 10 25 0 0 8 64 1 10
compare 3 "policy, 64 equal rows, s 16, d 1" 1 64 0 10 100 1 16 1 64 1 10000
compare 3 "policy, 60 rows, s 6, d 2, t 4" 3 60 0 10 25 1 6 2 4 1 10
compare 3 "policy, 60 rows, s 7, d 2, t 4" 61 60 0 10 25 1 7 2 4 1 10
compare 3 "policy, 60 rows, s 8, d 2" 4 60 0 10 45 1 8 2 64 1 10
# staff by role: few different holdings, many people with the same, and any number of them away
compare 3 "policy, 40 rows of 7 roles, s 32" 86 40 7 8 45 1 32 1 64 1 40
compare 3 "policy, 46 rows of 8 roles, s 64, t 4" 360 46 8 10 40 1 64 1 4 1 900
compare 3 "policy, 48 rows of 3 roles, s 64, t 3" 390 48 3 6 60 1 64 1 3 1 600
compare 3 "policy, 56 rows of 15 roles, s 32" 127 56 15 8 40 1 32 1 64 1 6
compare 3 "policy, 62 rows of 11 roles, s 64, t 3" 78 62 11 9 50 1 64 1 3 1 6
compare 3 "policy, 64 rows of 8 roles, s 64" 15 64 8 9 40 1 64 1 64 1 8
# the second edition: crews of two at least, with companions for whoever covers alone; in the last two fillings and the last policy nobody does
compare 3 "edition 2, 17 rows, d 8, t 2" 278 17 0 3 45 0 0 8 2 2 5
compare 3 "edition 2, 16 rows, d 7, t 3" 165 16 0 5 40 0 0 7 3 2 5
compare 3 "edition 2, filling, d 8, t 4, seed 4" 4 60 0 10 15 0 0 8 4 2 10
compare 3 "edition 2, filling, d 8, t 5, seed 40" 40 60 0 10 20 0 0 8 5 2 10
compare 3 "edition 2, policy, 64 equal rows, s 16" 1 64 0 10 100 1 16 1 64 2 10000
compare 3 "edition 2, 46 rows of 8 roles, s 64" 310 46 8 4 50 1 64 1 2 2 60
compare 3 "edition 2, policy, 60 rows, s 6, t 4" 3 60 0 10 25 1 6 2 4 2 10
