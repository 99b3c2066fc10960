#!/bin/sh
# Needs: rt gcc g++ ar ld objcopy rustc python3 valgrind
# Proves and builds the library, builds the examples, runs these in a folder of their own, and compares what they print with *.output
# beside this script. By hand it can be run without the last two of these: with valgrind it also looks for leaks and bad accesses, and
# with python3 it compares the prototypes of geosvm.h with the exports. `--keep` writes *.output. Behind them view_c is run once more, by
# other chances and longer: 10,000 steps, and with `--long` 100,000.
# KIT is the folder of the Rattle kit, found by `rt doc` where it isn't set. With OVER_CI set the library is built over those that the last
# `rt ci` left, in some minutes; `rt lib` would prove all of these once more.
set -e
keeps=
steps=10000
for word in "$@"; do
    case $word in
    --keep) keeps=yes ;;
    --long) steps=100000 ;;
    *) echo "usage: sh embedding/build.sh [--keep] [--long]" >&2; exit 2 ;;
    esac
done
here=$(cd "$(dirname "$0")" && pwd)
crate=$here/../crates/geos_c
kit=${KIT:-$(dirname "$(rt doc)")}
if command -v python3 > /dev/null; then python3 "$here/prototypes.py"; fi
if [ "${OVER_CI:-}" ]; then python3 "$here/library.py" "$crate"; else (cd "$crate" && rt lib); fi
work=$(mktemp -d)
trap 'rm -rf "$work"' EXIT
cd "$work"
strict="-O2 -Wall -Wextra -Werror"
sh "$here/archive.sh" "$crate/out/libgeos_c.a" "$kit/c/liblibc_c.a" libgeosvm.a
# The header and the ways to close a session, in each standard, by each compiler that is there. closed.c is C and C++.
for compiler in gcc clang; do
    if command -v $compiler > /dev/null; then
        for std in c99 c11 c17 c2x; do $compiler -std=$std -pedantic $strict -fsyntax-only -x c "$here/geosvm.h" "$here/closed.c"; done
    fi
done
for compiler in g++ clang++; do
    if command -v $compiler > /dev/null; then
        for std in c++98 c++11 c++17 c++20; do $compiler -std=$std -pedantic $strict -fsyntax-only -x c++ "$here/geosvm.h" "$here/closed.c"; done
    fi
done
for name in try container misuse view paths_try paths_fail threads_try; do gcc -std=c11 $strict "$here/$name.c" libgeosvm.a -lpthread -o ${name}_c; done
gcc -std=c11 $strict "$here/copying_try.c" libgeosvm.a -Wl,--wrap=malloc,--wrap=realloc,--wrap=pread64,--wrap=pwrite64 -o copying_try_c
gcc -std=c99 -pedantic $strict "$here/closed.c" libgeosvm.a -o closed_c
./closed_c
g++ -std=c++11 -pedantic $strict -x c++ "$here/closed.c" -x none libgeosvm.a -o closed_cc
./closed_cc
# Where a program defines some of the functions on files and not all, no session can be begun.
gcc -std=c11 $strict -Dgeosvm_io_sync=other_sync "$here/container.c" libgeosvm.a -o partial_c
rustc --edition 2024 -O "$here/try.rs" -C link-arg=libgeosvm.a -o try_rs
# Runs a program in an empty folder, by what stands before it, and keeps what it prints.
in_folder() {
    rm -rf run && mkdir run
    (cd run && "$@" > ../said)
}
for name in try_c try_rs container_c misuse_c view_c paths_try_c paths_fail_c copying_try_c threads_try_c; do
    in_folder ../$name
    if [ "$keeps" ]; then cp said "$here/$name.output"; fi
    diff "$here/$name.output" said
    echo "$name: as before"
    if command -v valgrind > /dev/null; then
        in_folder valgrind -q --leak-check=full --errors-for-leak-kinds=definite,indirect,possible --error-exitcode=9 ../$name
        diff "$here/$name.output" said
        echo "$name: as before, by valgrind"
    fi
done
if command -v valgrind > /dev/null; then
    in_folder valgrind -q --tool=helgrind --error-exitcode=9 ../threads_try_c 2000
    echo "threads_try_c: no race, by helgrind"
fi
in_folder ../partial_c || true
if [ "$(grep -c '^create .*: 2$' said)" != 9 ]; then
    echo "a program that lacks a function on files begins a session: $(head -n 1 said)"
    exit 1
fi
if ! in_folder ../view_c $steps 2; then
    cat said
    exit 1
fi
echo "view_c: $(tail -n 1 said), in $steps steps"
mkdir -p "$here/out"
cp libgeosvm.a "$here/out/"
