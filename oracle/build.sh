#!/usr/bin/env bash
# Builds the oracle into target/:
#   target/oracle          over the unchanged published files
#   target/oracle-counted  over a copy of join_ordering.rs that counts visits
#   target/oracle-bench    with the word 'bench': target/oracle, optimised as one whole
# The published files come from $OPTD_SOURCE, by default the folder
# shared/docs/src beside the repository. Nothing of them is kept here but
# their checksums.
set -euo pipefail

here=$(cd "$(dirname "$0")" && pwd)
source_folder=$(cd "${OPTD_SOURCE:-$here/../../shared/docs/src}" && pwd)
published=$source_folder/optd/core/src
build=$here/target

fail() {
    echo "oracle: $*" >&2
    exit 1
}

(cd "$source_folder" && sha256sum --check --strict --quiet "$here/CHECKSUMS") ||
    fail "the published files are not those of CHECKSUMS; nothing was built"

# The function's text, from its first line to the first line that is only "}".
connecting_edge_indices() {
    awk '/^pub\(crate\) fn connecting_edge_indices\(/ { on = 1 }
         on { print }
         on && /^}$/ { exit }' "$published/analysis.rs"
}

# Lays out the stand-in crate in folder $1 with the published files in it.
lay_out() {
    rm -rf "$1"
    mkdir -p "$1/optimize"
    cp "$here/standin/lib.rs" "$here/standin/visits.rs" "$1"
    cp "$published/hypergraph.rs" "$published/cost.rs" "$1"
    { cat "$here/standin/analysis.rs"; connecting_edge_indices; } >"$1/analysis.rs"
    cp "$here/standin/optimize/mod.rs" "$1/optimize"
    cat "$published/optimize/join_ordering.rs" "$here/standin/optimize/accessor.rs" \
        >"$1/optimize/join_ordering.rs"
}

# Compiles the crate in folder $1 and the oracle over it into program $2.
compile() {
    local folder=$1 program=$2
    shift 2
    local flags=(--edition 2024 -O -D warnings --check-cfg 'cfg(counted, test)' "$@")
    rustc "${flags[@]}" --crate-type rlib --crate-name optd_core \
        -o "$folder/liboptd_core.rlib" "$folder/lib.rs"
    rustc "${flags[@]}" --crate-name oracle --extern optd_core="$folder/liboptd_core.rlib" \
        -o "$program" "$here/src/main.rs"
}

lay_out "$build/unchanged"
grep -q '^}$' <(connecting_edge_indices) || fail "connecting_edge_indices was not found"
compile "$build/unchanged" "$build/oracle"
if [ "${1:-}" = bench ]; then
    compile "$build/unchanged" "$build/oracle-bench" -C codegen-units=1 -C lto=fat
fi

# The counted copy: one call more at the head of each of the four loops over subsets.
loop_head='for \&n_sub in \&subsets {'
lay_out "$build/counted"
sed -i "s/$loop_head/& crate::visits::count();/" "$build/counted/optimize/join_ordering.rs"
[ "$(grep -c 'crate::visits::count();' "$build/counted/optimize/join_ordering.rs")" = 4 ] ||
    fail "join_ordering.rs does not have its four loops over subsets"
compile "$build/counted" "$build/oracle-counted" --cfg counted
