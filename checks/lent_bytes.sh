#!/bin/sh
# Needs: git rt
# Bytes that are lent of a locked block are held by a borrow of the session: while they are used, nothing can be edited. So the compiler
# must refuse the functions below whose names begin with `late`, and no others. It stops at the borrow, before anything is proved, so that
# no must-fail edit can say it.
#
#     sh checks/lent_bytes.sh
set -eu
root=$(realpath "$(dirname "$0")/..")
folder=$(mktemp -d)
trap 'rm -rf "$folder"' EXIT
cp -r "$root/crates.txt" "$root/HANDLES" "$folder"
mkdir -p "$folder/crates/lending/src"
for crate in "$root"/crates/*/; do
    name=$(basename "$crate")
    mkdir -p "$folder/crates/$name"
    for part in src specs proofs; do
        [ ! -d "$crate/$part" ] || cp -r "$crate/$part" "$folder/crates/$name/$part"
    done
done
echo 'lending: geos_model test_stores undo_log' >>"$folder/crates.txt"
git init -q "$folder"
cd "$folder/crates/lending"

# functions NAME SECOND THIRD: a look at a locked block, the lines SECOND and THIRD, and the count of the bytes
functions() {
    cat <<END
pub fn $1_raw(session: &mut Session<MemStore>) -> usize {
    let mut count = 0;
    let lent = session.locked_raw(VmHandle(1));
    $2
    $3
    count
}

pub fn $1_chunk(session: &mut Session<MemStore>) -> usize {
    let mut count = 0;
    let lent = session.locked_chunk(VmHandle(1), ChunkHandle(16));
    $2
    $3
    count
}

END
}

look='if let Some(bytes) = lent { count = bytes.len(); }'
edit='let _done = session.edit(&Edit::SetMap(VmHandle(0)));'
{
    echo '#![tactic(auto)]'
    echo 'use geos_model::{ChunkHandle, Edit, VmHandle};'
    echo 'use test_stores::MemStore;'
    echo 'use undo_log::Session;'
    functions early "$look" "$edit"
    functions late "$edit" "$look"
    echo '#[test]'
    echo 'fn is_read() {}'
} >src/lib.rt
told=$(rt try --test 2>&1 || true)

# The edits of the functions that begin with `late`, each of which has to be refused by the borrow; nothing else is.
wanted=$(awk -v edit="    $edit" '/^pub fn late/ { late = 1 } /^}/ { late = 0 } late && $0 == edit { print "src/lib.rt:" NR }' src/lib.rt)
refused=$(printf '%s\n' "$told" | sed -n 's/^\(src.lib.rt:[0-9]*\):.*error\[borrow-e0502\].*/\1/p')
errors=$(printf '%s\n' "$told" | grep -c error || true)
if [ "$(printf '%s\n' "$wanted" | wc -l)" = 2 ] && [ "$refused" = "$wanted" ] && [ "$errors" = 2 ]; then
    echo "ok      an edit while the bytes are used is refused, of a raw block and of a chunk; one behind their last use is taken"
    echo "1 passed, 0 failed"
else
    echo "FAILED  refused are not the two edits while the bytes are used and those alone: $told"
    echo "0 passed, 1 failed"
    exit 1
fi
