#!/bin/sh
# Needs: gcc
# Has each request of geosvm for memory refused, one a run, until a run meets no refusal: on each example, and on each case of
# crates/cases/data/refusals.cases. No code of Rattle can have the allocator refuse; here malloc and the like are those of a library of a
# few lines. Then geosvm is run where there is little memory.
#
#     sh checks/each_request.sh crates/geosvm/out/geosvm [EVERY]
#
# Where EVERY is given only one of so many requests is refused, the first one of all among them.
set -u
geosvm=$(realpath "${1:?the path of the program}")
every=${2:-1}
data=$(realpath "$(dirname "$0")/../examples")
cases=$(realpath "$(dirname "$0")/../crates/cases/data/refusals.cases")
folder=$(mktemp -d)
cd "$folder" || exit 2
trap 'rm -rf "$folder"' EXIT
passed=0
failed=0

# told NAME WANTED GOT
told() {
    if [ "$2" = "$3" ]; then
        passed=$((passed + 1))
        echo "ok      $1"
    else
        failed=$((failed + 1))
        echo "FAILED  $1: wanted '$2', got '$3'"
    fi
}

# Refuses the request of the number in REFUSED, and tells on descriptor 9 that it has.
cat >refusing.c <<'END'
#include <errno.h>
#include <stddef.h>
#include <stdlib.h>
#include <unistd.h>

void *__libc_malloc(size_t), *__libc_calloc(size_t, size_t), *__libc_realloc(void *, size_t), *__libc_memalign(size_t, size_t);

static long number, count;

__attribute__((constructor)) static void begin(void) {
    const char *it = getenv("REFUSED");
    number = it ? atol(it) : 0;
}

static int refuses(void) {
    if (++count != number)
        return 0;
    if (write(9, "refused\n", 8) < 0)
        _exit(4);
    errno = ENOMEM;
    return 1;
}

void *malloc(size_t n) { return refuses() ? NULL : __libc_malloc(n); }
void *calloc(size_t k, size_t n) { return refuses() ? NULL : __libc_calloc(k, n); }
void *realloc(void *p, size_t n) { return refuses() ? NULL : __libc_realloc(p, n); }
void *aligned_alloc(size_t a, size_t n) { return refuses() ? NULL : __libc_memalign(a, n); }
int posix_memalign(void **p, size_t a, size_t n) {
    *p = refuses() ? NULL : __libc_memalign(a, n);
    return *p ? 0 : ENOMEM;
}
END
gcc -O1 -Wall -shared -fPIC -o refusing.so refusing.c || exit 2

# A script that asks a document for all that it has, and then for all that was saved.
awk 'function ask(b, c) {
        printf "list\nmapblock\n"
        for (b = 1; b < 17; b++) {
            printf "info %04x\nvread %04x\nchunks %04x\n", b, b, b
            for (c = 0; c < 8; c++) printf "read %04x %04x\n", b, 16 + 2 * c
        }
    }
    BEGIN { ask(); print "revert"; ask() }' >questions

# shown: what the document has, and the file of a save-as
shown() {
    for looked_at in document copy; do
        echo "$looked_at"
        if [ -e $looked_at ]; then
            cp $looked_at looked_into
            "$geosvm" looked_into <questions 2>/dev/null
        fi
    done
}

# start: the document as a script finds it
start() {
    rm -f document copy
    [ -z "$before" ] || cp "$before" document
}

# foresee_behind LINE: what is answered of so many lines of the script, and shown of the document behind them. It is found once.
foresee_behind() {
    [ ! -e behind/"$1" ] || return
    start
    head -n "$1" script | "$geosvm" $options document >behind/"$1".replies
    shown >behind/"$1"
}

# foresee_without LINE: so of the script without that line, which is refused
foresee_without() {
    [ ! -e without/"$1" ] || return
    start
    sed "${1}d" script | "$geosvm" $options document | sed "${1}i no 1 Memory" >without/"$1".replies
    [ "$1" -lt "$lines" ] || echo "no 1 Memory" >>without/"$1".replies
    shown >without/"$1"
}

# judge STATUS: what a run with a request refused has written and left is that behind some lines of the script, or without one
judge() {
    answered=$(wc -l <replies | tr -d ' ')
    shown >left
    made=
    [ ! -s document ] || made=yes
    case "$1 $(cat errors)" in
    "0 ")
        cmp -s replies behind/"$lines".replies && cmp -s left behind/"$lines" && return
        line=$(grep -n -x 'no 1 Memory' replies | head -n 1 | cut -d : -f 1)
        if [ -n "$line" ]; then
            foresee_without "$line"
            # A save-as that is refused gives its target back with any bytes: it may be the new document already.
            if [ "$(sed -n "${line}p" script)" = saveas ]; then
                sed -i '/^copy$/,$d' left without/"$line"
            fi
            cmp -s replies without/"$line".replies && cmp -s left without/"$line" && return
        fi
        ;;
    "1 geosvm: memory")
        foresee_behind "$answered"
        if cmp -s replies behind/"$answered".replies; then
            cmp -s left behind/"$answered" && return
            if [ "$answered" -lt "$lines" ]; then
                foresee_behind $((answered + 1))
                cmp -s left behind/$((answered + 1)) && return
            fi
            # Before the file was made there is none.
            [ "$answered" = 0 ] && [ -z "$before" ] && [ -z "$made" ] && return
        fi
        ;;
    # The file of a save-as is opened before a new document is made. Why a file isn't opened is told where there is memory for that.
    "1 geosvm: target 2 File"*)
        [ ! -s replies ] && [ -z "$made" ] && return
        ;;
    # A call on the system that has no memory for its path, say, has failed, and is told as one that failed otherwise.
    "1 geosvm: create 1 Memory" | "1 geosvm: create 2 File"*)
        [ ! -s replies ] && [ -z "$made" ] && return
        ;;
    "1 geosvm: open 1 Memory" | "1 geosvm: open 2 File"*)
        foresee_behind 0
        [ ! -s replies ] && cmp -s left behind/0 && return
        ;;
    esac
    wrong="$wrong $number ($1 $(cat errors))"
}

# each_of NAME OPTIONS BEFORE: a script, with its replies beside it, with each request of geosvm refused
each_of() {
    options=$2
    before=$3
    grep -v '^[[:space:]]*\(#\|$\)' "$1.script" >script
    lines=$(wc -l <script | tr -d ' ')
    rm -rf behind without
    mkdir behind without
    foresee_behind "$lines"
    wrong=
    cmp -s behind/"$lines".replies "$1.replies" || wrong=" other replies than those beside it"
    number=1
    tried=0
    while :; do
        start
        REFUSED=$number LD_PRELOAD=$folder/refusing.so "$geosvm" $options document <script >replies 2>errors 9>happened
        judge $?
        [ -s happened ] || break
        tried=$((tried + 1))
        [ "$number" -lt 10000 ] || break
        number=$((number + every))
    done
    total=$((total + tried))
    [ $((tried * every)) -gt 40 ] || wrong="$wrong $tried requests alone"
    told "$tried requests, $(basename "$1") $options" "" "$wrong"
}

echo "-- each request: the replies to the first lines and the document that these lead to, or all but of the line that is refused"
total=0
examples="first_path chunk_edits arrays chains contents joined_steps places locks small_document files_made"
# These take as long as the others together.
[ "$every" -gt 1 ] || examples="$examples large_text tutorial_novel"
for name in $examples; do
    each_of "$data/$name" --new ""
done
"$geosvm" --new saved <"$data/files_made.script" >replies
each_of "$data/files_opened" "" saved
"$geosvm" --new letter <"$data/tutorial_letter.script" >replies
each_of "$data/tutorial_letter_opened" "--undo 2" letter

# The cases, each opening as a script with its replies: `case_3.0` is that of the new file, and `case_3.1` of the file that it leaves. In
# `case_3.options` is how the first is run, in `case_3.files` on which file each other one is, and in `case_3.frames` with how many frames.
awk 'function put(command, reply) {
        print expanded(command) >>(name "." opening ".script")
        print reply >>(name "." opening ".replies")
    }
    # A word 00*3 stands for 000000.
    function expanded(text, words, count, k, piece) {
        if (!index(text, "*")) return text
        count = split(text, words, " ")
        text = ""
        for (k = 1; k <= count; k++) {
            split(words[k], piece, "*")
            text = text (k > 1 ? " " : "") (index(words[k], "*") ? repeated(piece[1], piece[2]) : words[k])
        }
        return text
    }
    function repeated(piece, times, half) {
        if (times < 2) return times ? piece : ""
        half = repeated(piece, int(times / 2))
        return half half (times % 2 ? piece : "")
    }
    function commit() { put("update", "ok"); put("save", "ok"); put("revert", "ok") }
    function say(line) { sub(/^ +/, "", line); split(line, parts, / += /); put(parts[1], parts[2]) }
    /^define/ { name = "" }
    /^case/ { name = "case_" ++cases; opening = 0; file = "document"; options = "--new" }
    !name { next }
    /^frames/ { print options " --cache " $2 >(name ".options"); print "--cache " $2 >(name ".frames") }
    /^target/ { printf " --as copy" >>(name ".options"); file = "copy" }
    /^use commits/ { commit() }
    /^former/ { file = "document" }
    /^open/ { opening++; print file >>(name ".files") }
    /^ / { say($0) }' "$cases"
for script in case_*.0.script; do
    name=${script%.0.script}
    options=$(tr '\n' ' ' <"$name".options)
    each_of "$name".0 "$options" ""
    before=
    start
    "$geosvm" $options document <"$name".0.script >replies
    for file in document copy; do [ ! -e $file ] || cp $file left_by_$file; done
    opening=0
    [ ! -e "$name".files ] || while read -r file; do
        opening=$((opening + 1))
        each_of "$name".$opening "$(cat "$name".frames)" left_by_"$file"
    done <"$name".files
done
echo "        $total requests"

# within ROOM OPTIONS FILE SCRIPT: what geosvm answers where it has so many kB of addresses
within() {
    (
        ulimit -v "$1"
        "$geosvm" $2 "$3" <"$4" 2>&1
    )
}

# The program, its libraries and the shortest script take this much, in steps of 100 kB.
least=1000
printf 'newraw 7 1\nundo\n' >shortest
until [ "$(within $least --new document shortest 2>errors | tail -n 1)" = ok ]; do
    least=$((least + 100))
    [ $least -lt 100000 ] || exit 2
done
echo "-- little memory: $least kB are what the program takes for two lines, and each bound is said beyond that"

# bound NAME ROOM OPTIONS FILE SCRIPT WANTED: the replies in so much more room, each kind with how often it came
bound() {
    got=$(within $((least + $2)) "$3" "$4" "$5" | sed 's/ .*//' | sort | uniq -c | sort -k 2 | awk '{printf "%s %s;", $1, $2}')
    told "$1, within $2 kB" "$6" "$got"
}

# A chain of as many blocks as there can be, each of the most bytes: 131,040 kB. A record that has each block once takes these; with a
# second copy of each it would take twice as much. When this was written 133,500 kB were enough.
awk 'BEGIN {
    for (b = 1; b <= 2048; b++) print "newraw 7 65520"
    for (b = 1; b < 2048; b++) printf "vwrite %04x 0 %02x%02x\n", b, (b + 1) % 256, (b + 1) / 256
    print "save"
}' >chain
"$geosvm" --new blocks <chain >replies
# An edit that the undo lists drop their records for stands before each that makes new ones.
awk 'BEGIN {
    print "chfree 0001\nundo\nredo\nundo"
    for (b = 1; b <= 2048; b++) printf "vfree %04x\n", b
    for (b = 1; b <= 2048; b++) print "undo"
    print "uid 0001 7\nundo\nchfree 0001\nundo\nwalk 0001\nchsize 0001\nundos\nredos"
}' >freed
bound "2,048 blocks of 65,520 bytes are freed, as one and one by one, and come back" 190000 "" blocks freed "1 blocks;3 number;4104 ok;"

# All blocks of that document are looked into and changed, and 8 of them are in memory: 512 kB. When this was written 1,500 kB were enough.
awk 'BEGIN { for (i = 0; i < 20000; i++) printf "vwrite %04x 100 61\nundo\n", i * 37 % 2048 + 1; print "undos" }' >around
bound "40,000 edits and undos go round in 131,040 kB of blocks" 3000 "" blocks around "1 number;40000 ok;"

# When this was written 125 kB were enough; 8 bytes that are lost with each record would be 3,900 kB.
awk 'BEGIN {
    print "newheap 0\nalloc 0001 100\nnewraw 7 100"
    for (i = 0; i < 100000; i++)
        print "vwrite 0002 7 6162\nundo\nwrite 0001 0010 7 6162\nundo\nalloc 0001 50\nundo\nuid 0002 9\nundo\nnewraw 3 10\nundo"
    print "undos"
}' >pairs
bound "a million edits and undos in turn" 2000 --new document pairs "100002 block;100001 chunk;1 number;800000 ok;"

# Each record has two bytes from before and two from behind, and no name. When this was written 9,000 kB were enough, 18 bytes for each;
# 8 bytes more for each would be 3,900 kB.
awk 'BEGIN {
    print "newraw 7 100"
    for (i = 0; i < 500000; i++) print "vwrite 0001 7 6162"
    for (i = 0; i < 500000; i++) print "undo"
    for (i = 0; i < 500000; i++) print "redo"
    print "undos"
}' >many
bound "half a million edits, as many undos and as many redos" 11000 --new document many "1 block;1 number;1500000 ok;"

echo "$passed passed, $failed failed"
[ "$failed" = 0 ]
