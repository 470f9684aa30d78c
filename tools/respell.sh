#!/bin/sh
# Brings the repository's own definitions and lemmas to the spelling of today's Rattle, by the table names.tsv: words in snake case, a dash
# only where it joins two of them. Run once, at the top of a repository that the kit's port.py has turned; it proves nothing.
set -eu
cd "$(dirname "$0")/.."
turn="$(dirname "$(rt doc)")/port/notes/2026-11-18-names-are-in-snake-case/snake.py"
python3 "$turn" --table tools/names.tsv crates
python3 "$turn" --table tools/names.tsv --only md README.md docs
for crate in crates/*; do
    (cd "$crate" && rt fmt)
done
