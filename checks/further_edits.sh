#!/bin/sh
# Needs: git rt
# Tries the changes of the code in crates/*/further-edits, which the prover must refuse, in a copy of the crates.
# They are no part of the gate: most are of functions that only their own crate calls, and where the contract of such a one is too weak
# the proof of a public one fails. Of a change in must-fail, which rt ci tries, that isn't so.
#
#     sh checks/further_edits.sh [CRATE..]
set -eu
root=$(realpath "$(dirname "$0")/..")
folder=$(mktemp -d)
trap 'rm -rf "$folder"' EXIT
cp "$root/crates.txt" "$root/HANDLES" "$folder"
for crate in "$root"/crates/*/; do
    name=$(basename "$crate")
    mkdir -p "$folder/crates/$name"
    for part in src specs proofs; do
        [ ! -d "$crate/$part" ] || cp -r "$crate/$part" "$folder/crates/$name/$part"
    done
    [ ! -d "$crate/further-edits" ] || cp -r "$crate/further-edits" "$folder/crates/$name/must-fail"
done
git init -q "$folder"
cd "$folder"
if [ $# -eq 0 ]; then
    for edits in crates/*/must-fail; do
        set -- "$@" "$(basename "$(dirname "$edits")")"
    done
fi
rt must-fail "$@"
