#!/usr/bin/env bash
# The planner and the unchanged Rust on the same sheets: prints the table of docs/BENCH.md, which says how it is measured.
# Words given name the sheets to measure, by default all. Needed besides what oracle/README.md names: rt and valgrind.
set -euo pipefail
export LC_ALL=C

root=$(cd "$(dirname "$0")/.." && pwd)
work=$root/target/bench
planner=("$root/crates/plan_rounds/out/plan_rounds")
rust=("$root/oracle/target/oracle-bench" rounds)
counted=("$root/oracle/target/oracle-counted" rounds)
turns=31            # processes of each side, in turn
process=50000       # microseconds that a process is to take

fail() {
    echo "bench: $*" >&2
    exit 1
}

# Writes the input: $1 rounds, then the sheet $2.
write_input() {
    local i octal
    for ((i = 0; i < 4; i++)); do
        printf -v octal '\\%03o' $(($1 >> 8 * i & 255))
        printf "$octal"
    done >"$work/input"
    cat "$work/sheets/$2" >>"$work/input"
}

# Runs a program on the input, and sets took to the microseconds from start to end.
run() {
    local start=${EPOCHREALTIME/./}
    "$@" <"$work/input" >"$work/output"
    took=$((${EPOCHREALTIME/./} - start))
}

# Both sides answer alike: answer, edges, plans, memo entries, visits, chosen plan. The unchanged Rust counts no visits.
compare() {
    local ours theirs counts
    write_input 1 "$1"
    ours=$("${planner[@]}" <"$work/input")
    counts=$("${counted[@]}" <"$work/input")
    theirs=$("${rust[@]}" <"$work/input")
    [ "$ours" = "$counts" ] || fail "$1: the planner says '$ours', the counted Rust '$counts'"
    read -r _ edges _ memo visits _ <<<"$ours"
    [ "${ours/ $visits / 0 }" = "$theirs" ] || fail "$1: the planner says '$ours', the Rust '$theirs'"
}

# Sets rounds so that a process of the program takes about as long as it is to take. $1: sheet.
choose_rounds() {
    local sheet=$1
    shift
    rounds=1
    while write_input "$rounds" "$sheet" && run "$@" && [ "$took" -lt $((process / 4)) ]; do
        rounds=$((rounds * 4))
    done
    rounds=$((rounds * process / took + 1))
}

# Sets ours and theirs to the nanoseconds a call: the shortest of all turns.
measure_time() {
    local our_rounds their_rounds turn
    choose_rounds "$1" "${planner[@]}" && our_rounds=$rounds
    choose_rounds "$1" "${rust[@]}" && their_rounds=$rounds
    ours='' theirs=''
    for ((turn = 0; turn < turns; turn++)); do
        write_input "$our_rounds" "$1" && run "${planner[@]}"
        [ -n "$ours" ] && [ "$ours" -le "$took" ] || ours=$took
        write_input "$their_rounds" "$1" && run "${rust[@]}"
        [ -n "$theirs" ] && [ "$theirs" -le "$took" ] || theirs=$took
    done
    ours=$((ours * 1000 / our_rounds)) theirs=$((theirs * 1000 / their_rounds))
}

# Prints the instructions of a process. Callgrind counts each byte of a repeated move as one, so the C library is told to use none.
instructions() {
    GLIBC_TUNABLES=glibc.cpu.x86_rep_movsb_threshold=0x40000000:glibc.cpu.x86_rep_stosb_threshold=0x40000000 \
        valgrind --tool=callgrind --callgrind-out-file=/dev/null "$@" <"$work/input" 2>&1 >/dev/null |
        sed -n 's/.*Collected : //p'
}

# Prints the instructions a call: three rounds less one, halved. $1: sheet.
count_instructions() {
    local sheet=$1 one three
    shift
    write_input 1 "$sheet" && one=$(instructions "$@")
    write_input 3 "$sheet" && three=$(instructions "$@")
    echo $(((three - one) / 2))
}

ratio() {
    awk -v a="$1" -v b="$2" 'BEGIN { printf "%.2f", a / b }'
}

(cd "$root/crates/plan_rounds" && rt run <stdin) >&2
"$root/oracle/build.sh" bench >&2
mkdir -p "$work"
sheets=$("$root/oracle/target/oracle" bench-sheets "$work/sheets")

echo "| Sheet | Leaves | Edges | Visits | Memo | Planner, ns | Rust, ns | Ratio | Planner, instructions | Rust, instructions | Ratio |"
echo "|---|--:|--:|--:|--:|--:|--:|--:|--:|--:|--:|"
while read -r sheet leaves; do
    case " ${*:-$sheet} " in *" $sheet "*) ;; *) continue ;; esac
    compare "$sheet"
    measure_time "$sheet"
    our_count=$(count_instructions "$sheet" "${planner[@]}")
    their_count=$(count_instructions "$sheet" "${rust[@]}")
    echo "| $sheet | $leaves | $edges | $visits | $memo | $ours | $theirs | $(ratio "$ours" "$theirs")" \
        "| $our_count | $their_count | $(ratio "$our_count" "$their_count") |"
done <<<"$sheets"
