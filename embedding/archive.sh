#!/bin/sh
# Needs: gcc ar ld objcopy
# Makes the library for C, as one archive, of what `rt lib` left, of the kit's heap, which is over malloc, realloc and free, and of the C
# sources beside this script. Of its names a program sees those of geosvm.h alone.
#
#     sh embedding/archive.sh LIBGEOS_C LIBLIBC_C OUT
set -e
here=$(cd "$(dirname "$0")" && pwd)
work=$(mktemp -d)
trap 'rm -rf "$work"' EXIT
objects=
for part in channel files sessions paths copying codes version; do
    gcc -std=c99 -pedantic -O2 -Wall -Wextra -Werror -fPIC -c "$here/$part.c" -o "$work/$part.o"
    objects="$objects $work/$part.o"
done
# The library's reads and writes go to channel.c, which hands them to the program, and sessions.c stands in front of six of its calls.
for name in open create open_checksums create_checksums close save_as; do echo "geosvm_$name proved_geosvm_$name"; done >"$work/names"
objcopy --redefine-sym read=geosvm_channel_read --redefine-sym write=geosvm_channel_write --redefine-syms="$work/names" "$1" "$work/part.a"
# One object, so that its parts find each other where their names are hidden.
# shellcheck disable=SC2086
ld -r -o "$work/geosvm.o" --whole-archive "$work/part.a" --no-whole-archive $objects "$2"
objcopy --wildcard --keep-global-symbol='!geosvm_channel_*' --keep-global-symbol='geosvm_*' "$work/geosvm.o"
rm -f "$3"
ar rcs "$3" "$work/geosvm.o"
