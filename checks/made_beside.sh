#!/bin/sh
# Needs: gcc
# Tries on the built program that a document which is made anew, by --new or by a saveas, is made beside the old one and takes its
# place when it is whole: the old one stays wherever that is refused, with its owner, its mode and its links.
#
#     sh checks/made_beside.sh crates/geosvm/out/geosvm
set -u
program=$(realpath "$1") || exit 2
folder=$(mktemp -d)
trap 'chmod -R u+w "$folder"; rm -rf "$folder"' EXIT
cd "$folder" || exit 2
trap '' XFSZ
passed=0
failed=0

# told NAME WANTED GOT
told() {
    if [ "$2" = "$3" ]; then
        passed=$((passed + 1))
    else
        failed=$((failed + 1))
        echo "FAILED  $1: wanted '$2', got '$3'"
    fi
}

# A document with one heap at a path, which is saved.
old() {
    rm -f "$1" "$1.geosvm-new"
    printf 'newheap 7\nsave\n' | "$program" --new "$1" >made
    told "a document is made at $1" "block 0001 ok " "$(tr '\n' ' ' <made)"
    cp "$1" before
}

# What a program that opens the document lists.
listed() {
    printf 'list\n' | "$program" "$1" 2>&1
}

same() {
    cmp -s "$2" before
    told "$1" 0 $?
}

# Nothing but these names, in order, is in the folder.
names() {
    told "$1: names" "$2" "$(ls ./*document* | sort | tr '\n' ' ')"
}

# How a document ends up that is made anew.
old a.document
chmod 640 a.document
inode=$(stat -c %i a.document)
printf '' | "$program" --new a.document
told "made anew: ends well" 0 $?
told "made anew: it is empty" "blocks" "$(listed a.document)"
told "made anew: the mode stays" 640 "$(stat -c %a a.document)"
told "made anew: it is another file" 1 "$([ "$inode" != "$(stat -c %i a.document)" ] && echo 1)"
names "made anew" "./a.document "

# Where no file may be as long as a document, nothing can be written.
old a.document
told "refused: what is told, and the status" "geosvm: create 2 File 1" \
    "$(ulimit -f 0; printf '' | "$program" --new a.document 2>&1 | tr '\n' ' '; printf '' | "$program" --new a.document 2>/dev/null; echo $?)"
same "refused: the old document stays" a.document
names "refused" "./a.document "

# A saveas that can't be written leaves FILE2 as it was, and one that can makes it anew.
old b.document
cp b.document kept
old a.document
told "a refused saveas: its reply" "no 2 File" "$(ulimit -f 0; printf 'saveas\n' | "$program" --as b.document a.document)"
told "a refused saveas: FILE2 stays" 0 "$(cmp -s b.document kept; echo $?)"
names "a refused saveas" "./a.document ./b.document "
told "a saveas: its replies" "block 0002 ok ok " "$(printf 'newraw 9 16\nsaveas\nsave\n' | "$program" --as b.document a.document | tr '\n' ' ')"
told "a saveas: FILE2 has it all" "blocks 0001 0002" "$(listed b.document)"
told "a saveas: FILE has what it saved" "blocks 0001" "$(listed a.document)"
names "a saveas" "./a.document ./b.document "

# A link stays one, and what it leads to is made anew, in its own folder.
old a.document
mkdir -p far
mv a.document far/a.document
ln -s far/a.document link.document
printf 'newheap 1\nnewheap 1\nsave\n' | "$program" --new link.document >made
told "a link: it stays" "far/a.document" "$(readlink link.document)"
told "a link: the file is made anew" "blocks 0001 0002" "$(listed far/a.document)"
told "a link: names" "a.document " "$(ls far | tr '\n' ' ')"
rm -r far link.document b.document

# A file with several names has them still.
old a.document
ln a.document b.document
printf '' | "$program" --new a.document
told "several names: both lead to the new document" "blocks" "$(listed b.document)"
told "several names: they are one file" 2 "$(stat -c %h a.document)"
rm b.document

# In a folder in which no file can be made the old one is made anew where it lies. To the superuser all folders can be written.
if [ "$(id -u)" -ne 0 ]; then
    mkdir shut
    old shut/a.document
    chmod 555 shut
    printf '' | "$program" --new shut/a.document
    told "a folder that can't be written: it is made anew" "blocks" "$(listed shut/a.document)"
    chmod 755 shut
fi

# What a program that was stopped has left is taken away, also a link, which leads nowhere afterwards.
old a.document
echo precious >precious
ln -s precious a.document.geosvm-new
printf '' | "$program" --new a.document
told "left behind: it is made anew" "blocks" "$(listed a.document)"
told "left behind: where it led nothing is written" "precious" "$(cat precious)"
names "left behind" "./a.document "

# But no document that is in use: the old one is made anew where it lies.
old a.document
old a.document.geosvm-new
mkfifo used
"$program" a.document.geosvm-new <used >replies &
exec 3>used
printf 'list\n' >&3
while [ ! -s replies ]; do sleep 0.1; done
printf '' | "$program" --new a.document
told "a name in use: it is made anew" "blocks" "$(listed a.document)"
exec 3>&-
wait
told "a name in use: the other document stays" "blocks 0001" "$(listed a.document.geosvm-new)"
rm a.document.geosvm-new

# A program that is stopped at any call by which a file is changed leaves the old document or the new one.
cat >stopped.c <<'C'
#define _GNU_SOURCE
#include <dlfcn.h>
#include <stdio.h>
#include <stdlib.h>
#include <unistd.h>
static void counted(void) {
  static int calls;
  if (++calls == atoi(getenv("STOPPED_AT"))) _exit(9);
}
#define STOPPED(type, name, parameters, arguments) \
  type name parameters { \
    counted(); \
    return ((type(*) parameters)dlsym(RTLD_NEXT, #name))arguments; \
  }
STOPPED(ssize_t, pwrite, (int file, const void *bytes, size_t size, off_t at), (file, bytes, size, at))
STOPPED(int, ftruncate, (int file, off_t size), (file, size))
STOPPED(int, fsync, (int file), (file))
STOPPED(int, fchmod, (int file, mode_t mode), (file, mode))
STOPPED(int, rename, (const char *from, const char *to), (from, to))
STOPPED(int, unlink, (const char *path), (path))
C
gcc -shared -fPIC -o stopped.so stopped.c -ldl || exit 2

# stopped NAME NEW ARGUMENT..: the script is in the file script; what the document lists is as before, or NEW.
stopped() {
    name=$1
    new=$2
    shift 2
    moment=0
    status=9
    while [ "$status" -eq 9 ]; do
        moment=$((moment + 1))
        old b.document
        old a.document
        STOPPED_AT=$moment LD_PRELOAD=$folder/stopped.so "$program" "$@" <script >replies
        status=$?
        got=$(listed b.document)
        [ "$got" = "$new" ] || got=$(echo "$got" | sed 's/^blocks 0001$/as before/')
        case $got in
        "$new" | "as before") told "stopped at $moment: $name" 1 1 ;;
        *) told "stopped at $moment: $name" "as before" "$got" ;;
        esac
    done
    told "$name: it can be stopped at five calls and more" 1 "$([ "$moment" -gt 5 ] && echo 1)"
    told "$name: it ends well" "0 $new" "$status $(listed b.document)"
}

: >script
stopped "made anew" "blocks" --new b.document
printf 'newheap 1\nsaveas\n' >script
stopped "a saveas" "blocks 0001 0002" --as b.document a.document

# Two at once: the second is refused while the first has it, before and after it was made anew.
old a.document
mkfifo lines
"$program" --new a.document <lines >replies &
exec 3>lines
printf 'newheap 1\nsave\n' >&3
while [ "$(wc -l <replies)" -lt 2 ]; do sleep 0.1; done
told "two at once: the second is refused" "geosvm: create 2 File
geosvm: a.document: in use by another program" "$(printf '' | "$program" --new a.document 2>&1)"
exec 3>&-
wait
told "two at once: the first one's document stands" "blocks 0001" "$(listed a.document)"

echo "$passed passed, $failed failed"
[ "$failed" -eq 0 ]
