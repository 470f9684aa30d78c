#!/usr/bin/env bash
# Builds the oracle and runs one of its commands; see README.md.
set -euo pipefail

here=$(cd "$(dirname "$0")" && pwd)
"$here/build.sh"

case "${1:-}" in
compare)
    "$here/target/oracle" compare
    "$here/target/oracle-counted" compare
    ;;
vectors)
    made="$here/target/vectors"
    "$here/target/oracle" vectors "$made/unchanged" "$here/../samples"
    # The counted copy writes the same, and holds the visits in it to its own.
    "$here/target/oracle-counted" vectors "$made/counted" "$here/../samples" >/dev/null
    for file in calls.bin checks.bin texts.bin; do
        cmp "$made/unchanged/$file" "$made/counted/$file"
    done
    cp "$made/unchanged/calls.bin" "$here/../crates/call_vectors/stdin"
    cp "$made/unchanged/checks.bin" "$here/../crates/sheet_vectors/stdin"
    cp "$made/unchanged/texts.bin" "$here/../crates/sample_texts/stdin"
    ;;
replay)
    seed=${2:-$(date +%s)}
    made="$here/target/fresh"
    "$here/target/oracle" fresh "$made/unchanged" "$seed"
    # The counted copy writes the same, and holds the visits in it to its own.
    "$here/target/oracle-counted" fresh "$made/counted" "$seed" >/dev/null
    cmp "$made/unchanged/calls.bin" "$made/counted/calls.bin"
    "$here/../crates/call_vectors/out/call_vectors" <"$made/unchanged/calls.bin" | awk '
        { print } $NF != "agree" || $1 != $(NF - 2) { differs = 1 } END { exit differs }'
    ;;
survey | plan)
    "$here/target/oracle" "$@"
    ;;
*)
    echo "usage: run.sh compare | survey | vectors | replay [seed] | plan [word...]" >&2
    exit 2
    ;;
esac
