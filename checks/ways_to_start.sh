#!/bin/sh
# Needs: sh
# Starts geosvm in the ways in which a document could be touched that shouldn't be: with closed standard streams, beside another
# geosvm on the same file, and with FILE2 as another name of FILE. Each try looks at the exit status, at what was told, and at the
# document, byte by byte; help and the version are asked for where they can't be written. With geosdoc too, it starts its restore with
# closed standard streams.
#
#     sh checks/ways_to_start.sh crates/geosvm/out/geosvm [crates/geosdoc/out/geosdoc]
set -u
geosvm=$(realpath "${1:?the path of the program}")
geosdoc=
if [ $# -gt 1 ]; then
    geosdoc=$(realpath "$2") || exit 2
fi
folder=$(mktemp -d)
cd "$folder" || exit 2
trap 'rm -rf "$folder"' EXIT
passed=0
failed=0

# told NAME WANTED GOT
told() {
    if [ "$2" = "$3" ]; then
        passed=$((passed + 1))
        echo "ok      $1: $(printf %s "$3" | tr '\n' ' ')"
    else
        failed=$((failed + 1))
        echo "FAILED  $1: wanted '$2', got '$3'"
    fi
}

# same NAME: the document is as it was
same() {
    if cmp -s document before; then
        passed=$((passed + 1))
    else
        failed=$((failed + 1))
        echo "FAILED  $1: the document has changed"
    fi
}

# A document that begins to be a script where it is read as one: its raw block holds the lines of one.
harmful=$(printf '\nmap 0000\nvfree 0001\nsave\n' | od -An -v -tx1 | tr -d ' \n')
fresh() {
    printf 'newraw 7 0\nattach 0001 %s\nmap 0001\nsave\n' "$harmful" | "$geosvm" --new document >replies || exit 2
    cp document before
}
printf 'list\nmapblock\ninfo 0001\n' >script

echo "-- closed standard streams"
fresh
"$geosvm" document <&- >replies 2>errors
told "no input" "0 " "$? $(cat replies errors)"
same "no input"
"$geosvm" document <script >&- 2>errors
told "no output" "1 geosvm: write fault" "$? $(cat errors)"
same "no output"
for word in --help --version; do
    "$geosvm" "$word" >&- 2>errors
    told "no output for $word" "1 geosvm: write fault" "$? $(cat errors)"
    "$geosvm" "$word" >/dev/full 2>errors
    told "a full device for $word" "1 geosvm: write fault" "$? $(cat errors)"
done
"$geosvm" document <script >replies 2>&-
told "no errors" "0 blocks 0001
block 0001
raw 7 26" "$? $(cat replies)"
same "no errors"
"$geosvm" document <&- >&- 2>errors
told "no input, no output" "0 " "$? $(cat errors)"
same "no input, no output"
"$geosvm" document <&- >replies 2>&-
told "no input, no errors" "0 " "$? $(cat replies)"
same "no input, no errors"
"$geosvm" document <script >&- 2>&-
told "no output, no errors" 1 "$?"
same "no output, no errors"
"$geosvm" document <&- >&- 2>&-
told "none of them" 0 "$?"
same "none of them"
"$geosvm" --as other document <&- >&- 2>&-
told "none of them, with a target" "0 0" "$? $(wc -c <other | tr -d ' ')"
same "none of them, with a target"
"$geosvm" missing <&- >&- 2>&-
told "none of them, and no such file" 1 "$?"
"$geosvm" --new made <&- >&- 2>&-
told "none of them, and a new document" "0 1040" "$? $(wc -c <made | tr -d ' ')"

# restored NAME WANTED GOT: what is made is as before
restored() {
    told "$1" "$2" "$3"
    if cmp -s restored before; then
        passed=$((passed + 1))
    else
        failed=$((failed + 1))
        echo "FAILED  $1: another document is made"
    fi
    rm -f restored
}
if [ -n "$geosdoc" ]; then
    echo "-- a restore with closed standard streams"
    fresh
    "$geosdoc" dump document >dumped || exit 2
    "$geosvm" --new again <dumped >replies || exit 2
    cp again before
    "$geosdoc" restore restored <dumped >&- 2>errors
    restored "a restore, no output" "0 " "$? $(cat errors)"
    "$geosdoc" restore restored <dumped >replies 2>&-
    restored "a restore, no errors" "0 " "$? $(cat replies)"
    "$geosdoc" restore restored <dumped >&- 2>&-
    restored "a restore, no output, no errors" 0 "$?"
    "$geosvm" --new before </dev/null || exit 2
    "$geosdoc" restore restored <&- >replies 2>errors
    restored "a restore, no input" "0 " "$? $(cat replies errors)"
    "$geosdoc" restore restored <&- >&- 2>&-
    restored "a restore, none of them" 0 "$?"
    printf 'map 0009\n' >refused
    "$geosdoc" restore restored <refused >&- 2>&-
    restored "a restore that is refused, no output, no errors" 1 "$?"
    cp document before
    "$geosdoc" restore document <refused >&- 2>&-
    told "a restore of what is there, no output, no errors" 1 "$?"
    same "a restore of what is there, no output, no errors"
fi

echo "-- a second program on the same file"
fresh
mkfifo pipe
"$geosvm" document <pipe >first &
exec 3>pipe
printf 'list\n' >&3
while [ ! -s first ]; do sleep 0.05; done
"$geosvm" document <script >replies 2>errors
told "opened twice" "1 geosvm: open 2 File
geosvm: document: in use by another program" "$? $(cat replies errors)"
same "opened twice"
"$geosvm" --new document <script >replies 2>errors
told "made anew while it is open" "1 geosvm: create 2 File
geosvm: document: in use by another program" "$? $(cat replies errors)"
same "made anew while it is open"
"$geosvm" --new --as document other <script >replies 2>errors
told "a target that is open" "1 geosvm: target 2 File
geosvm: document: in use by another program" "$? $(cat replies errors)"
same "a target that is open"
printf 'vread 0001\n' >&3
exec 3>&-
wait
told "the first program goes on" "blocks 0001
bytes $harmful" "$(cat first)"
same "the first program goes on"
"$geosvm" document <script >replies 2>errors
told "opened again when the first has ended" "0 blocks 0001
block 0001
raw 7 26" "$? $(cat replies errors)"

echo "-- FILE2 is FILE under another name"
fresh
ln document hard
ln -s document soft
for name in hard soft ./document "$folder/document"; do
    printf 'saveas\nsave\n' >commits
    "$geosvm" --as "$name" document <commits >replies 2>errors
    told "FILE2 is ${name##*/}, of ${name%/*}" "1 geosvm: target 2 File
geosvm: $name: open already under another name" "$? $(cat replies errors)"
    same "FILE2 is $name"
    "$geosvm" --new --as "$name" document <commits >replies 2>errors
    told "the same with --new" "1 geosvm: target 2 File
geosvm: $name: open already under another name" "$? $(cat replies errors)"
    same "the same with --new"
done
"$geosvm" --as document document <commits >replies 2>errors
told "FILE2 is FILE in so many words" "2 geosvm: FILE2 is FILE" "$? $(cat replies errors)"
same "FILE2 is FILE in so many words"

echo "$passed passed, $failed failed"
[ "$failed" = 0 ]
