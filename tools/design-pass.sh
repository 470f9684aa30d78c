#!/bin/sh
# Counts the places of docs/DESIGN-PASS.md: tools/design-pass.sh [TREE] [--counts]. A line for each finding, POINT crate file:line name | what, with
# `| kept: ..` behind it where a comment of the place says so, and then a count for each point (alone with --counts).
# TREE: another checkout to be counted, with these scripts; else the repository of this script.
set -eu
here="$(cd "$(dirname "$0")" && pwd)"
tree="$here/.."
only=""
for word in "$@"; do
    case "$word" in
        --counts) only=1 ;;
        *) tree="$word" ;;
    esac
done
export PYTHONDONTWRITEBYTECODE=1
all="$(for point in 1 2 3 4 5 6 7 8; do python3 "$here/places.py" "$tree" "$point" | awk '!seen[$0]++'; done)"
[ -n "$only" ] || printf '%s\n' "$all"
printf '%s\n' "$all" | awk '
    # a finding is a line; a place is a function, type, constant, loop or file of one point, however many findings it has
    NF {
        lines[$1]++
        name = $4; sub(/\(.*/, "", name)
        if (!(($1, $3, name) in seen)) { seen[$1, $3, name] = 1; places[$1]++ }
        if (/ \| kept: / && !(($1, $3, name) in why)) { why[$1, $3, name] = 1; kept[$1]++ }
        if (!(($1, $2) in in_crate)) { in_crate[$1, $2] = 1; crates[$1]++ }
    }
    END { for (p = 1; p <= 8; p++) printf "point %d: %d findings at %d places in %d crates; %d places say why they stay\n", p, lines[p], places[p], crates[p], kept[p] }'
kinds() { printf '%s\n' "$all" | grep "^$1 " | sed 's/^[^|]*| //; s/ | kept: .*//' | grep -oE "$2" | sort -u | wc -l | tr -d ' '; }
found() { printf '%s\n' "$all" | grep "^$1 " | grep -cE "$2" || true; }
echo "point 1 by kind: $(found 1 '\| enum of') enums, $(found 1 '\| a number for a kind') constants, $(found 1 '\| a flag') flags, \
$(found 1 '\| a field') fields, $(found 1 '\| a parameter') parameters, $(found 1 'literal number') comparisons with a literal, \
$(found 1 'match of numbers') matches, $(found 1 'stands for none') numbers that stand for none by their comment"
echo "point 2 by kind: $(kinds 2 'functions group [0-9]+') groups of functions, $(kinds 2 'types group [0-9]+') groups of types"
echo "point 5 by kind: $(found 5 '\| [0-9]+ parameters( \||$)') functions with more than 12 parameters, \
$(kinds 5 '^group [0-9]+') groups of parameters, $(kinds 5 '^fact [0-9]+') facts"
echo "point 6 by kind: $(found 6 'says how many') numbers beside lists, \
$(found 6 'parallel lists') signatures or types with parallel lists, $(found 6 'parallel arrays of') sets of parallel arrays, \
$(found 6 'section of one list') sections of one list, $(found 6 'array with a count') arrays with a count"
echo "point 8 by kind: $(found 8 'an answer written') answers, $(found 8 'a helper lemma') helper lemmas among them, \
$(found 8 'a file of lemmas') files of lemmas, $(found 8 'the same statement') lemmas with the statement of another, \
$(found 8 'word for word') answers that stand word for word in three or more places"
