#!/bin/sh
# Needs: file groff man
# Looks over the pages for newcomers: that no page has a line of over 120 columns, that the manual pages are in order, that geosvm.1 has the
# commands of SCRIPT.md, that the magic lines tell a document, that the commands and replies of TUTORIAL.md are those of its scripts, and
# that what DESIGNING.md and RATTLE.md quote of scripts and of a program stands there. With a program it runs the tutorial's scripts too, on
# files.
#
#     sh checks/pages_checked.sh [crates/geosvm/out/geosvm]
set -u
cd "$(dirname "$0")/.." || exit 2
program=
if [ $# -gt 0 ]; then
    program=$(realpath "$1") || exit 2
fi
data=examples
folder=$(mktemp -d)
trap 'rm -rf "$folder"' EXIT
passed=0
failed=0

# told NAME WANTED GOT
told() {
    if [ "$2" = "$3" ]; then
        passed=$((passed + 1))
        echo "ok      $1"
    else
        failed=$((failed + 1))
        echo "FAILED  $1: wanted '$2', got '$3'"
    fi
}

# there COMMAND: whether the machine has it, which it has to
there() {
    command -v "$1" >"$folder/where" && return 0
    failed=$((failed + 1))
    echo "FAILED  there is no $1"
    return 1
}

# same NAME: what is in the files wanted and got
same() {
    told "$1" "" "$(diff "$folder/wanted" "$folder/got")"
}

# What a build or an installation made is no page of ours. Columns are counted in characters, and all bytes of one but the first are 80 to
# bf, whatever awk knows of UTF-8. Rows of tables are lines too.
echo "-- columns"
find . \( -name out -o -name target -o -name .git \) -prune -o -name '*.md' -print | sort >"$folder/pages"
told "README.md is among the pages" ./README.md "$(grep -x ./README.md "$folder/pages")"
told "no page has a line of over 120 columns" "" "$(while read -r page; do
    LC_ALL=C awk '{ columns = gsub(/[^\200-\277]/, "") } columns > 120 { print FILENAME ":" FNR ", " columns }' "$page"
done <"$folder/pages")"

echo "-- manual pages"
if there groff; then
    for page in docs/*.1; do
        told "groff warns of nothing in $page" "" "$(groff -mandoc -ww -z "$page" 2>&1)"
    done
fi
if there man; then
    for page in docs/*.1; do
        man -l "$page" >"$folder/shown" 2>"$folder/errors"
        told "man shows $page" "0 " "$? $(cat "$folder/errors")"
    done
fi
sed -n '/^| Command |/,/^$/s/^| \(`[^`]*`\(, `[^`]*`\)*\) |.*/\1/p' docs/SCRIPT.md | grep -o '`[^`]*`' | tr -d '`\\' | sort >"$folder/wanted"
sed -n '/^\.Sh COMMANDS/,/^\.Sh REPLIES/s/^\.It Cm \(.*\)/\1/p' docs/geosvm.1 | sed 's/ Ar / /' | sort >"$folder/got"
same "geosvm.1 has the commands of SCRIPT.md, with their operands"
sed -n 's/^| `no \([0-9]* [A-Za-z]*\)` |.*/\1/p' docs/SCRIPT.md >"$folder/wanted"
sed -n '/^\.Sh REPLIES/,/^\.Sh FILES/s/^\.It \(.*\)/\1/p' docs/geosvm.1 >"$folder/got"
same "geosvm.1 has the refusals of SCRIPT.md"

# zeros N
zeros() {
    dd if=/dev/zero bs=1 count="$1" 2>"$folder/errors"
}

# The first file of docs/FORMAT.md, and what is none.
document() {
    printf 'GVMF\001\002\000\000\001\000\000\000\000\000\000\000\002\000\000\000\020\000\000\000\002\000\000\000\020\000\000\000'
    zeros 480
    printf 'GVMF'
    zeros 508
    printf 'GDIR\002\000\000\000\000\000\000\000\000\000\000\000'
}
echo "-- magic lines"
if there file; then
    magic=docs/geosvm.magic
    document >"$folder/new.document"
    told "a new document" "GEOS VM document, slot 0: version 2 number 1" "$(file -b -m "$magic" "$folder/new.document")"
    : >"$folder/empty"
    zeros 2000 >"$folder/zeros"
    { zeros 4; document; } >"$folder/shifted"
    printf 'GVM' >"$folder/cut"
    for other in "$folder/empty" "$folder/zeros" "$folder/shifted" "$folder/cut" docs/FORMAT.md "$magic" /bin/sh; do
        case $(file -b -m "$magic" "$other") in
            *"GEOS VM"*) is=document ;;
            *) is=other ;;
        esac
        told "${other##*/} is none" other $is
    done
fi

# paired NAME: the commands of a script with their replies, as a page has them
paired() {
    grep -v '^[[:space:]]*\(#\|$\)' "$data/$1.script" | paste - "$data/$1.replies"
}

echo "-- the tutorial"
names=$(sed -n 's/^```\(tutorial_[a-z_]*\)$/\1/p' docs/TUTORIAL.md | sort -u)
for name in $names; do
    # A line of a block is a command, two spaces or more, and its reply.
    paired "$name" >"$folder/wanted"
    awk -v name="$name" '$0 == "```" name { on = 1; next } $0 == "```" { on = 0 } on' docs/TUTORIAL.md \
        | awk -F '  +' -v OFS='\t' '{ print $1, $2 }' >"$folder/got"
    same "$name has the lines of its script, in order: $(wc -l <"$folder/wanted" | tr -d ' ')"
done
told "all scripts are in it" "$(cd $data && ls tutorial_*.script | sed 's/\.script$//' | sort)" "$names"

# quoted PAGE MARK FILE [columns]: how many blocks under this mark the page has, each of which has to stand in the file, in order and
# without a gap; with `columns` a line is a command, two spaces or more, and its reply
quoted() {
    awk -F '  +' -v OFS='\t' -v mark="$2" -v by_columns="${4:-}" '
        NR == FNR { rest = rest $0 "\n"; next }
        $0 == "```" mark { on = 1; block = ""; next }
        on && $0 == "```" {
            on = 0
            at = index("\n" rest, "\n" block)
            if (at == 0) { print "not there, or not in order: " block; exit }
            rest = substr(rest, at + length(block))
            count++
        }
        on { if (by_columns) $1 = $1; block = block $0 "\n" }
        END { print count + 0 " quoted" }' "$3" "$1"
}

# quotes PAGE MARK FILE [columns]: the page has blocks under this mark, and all of them are quoted
quotes() {
    count=$(grep -c -x "\`\`\`$2" "$1")
    [ "$count" != 0 ] || count=some
    told "$1 quotes $2" "$count quoted" "$(quoted "$@")"
}

echo "-- the designs, and the calls from Rattle"
for name in $(cd $data && ls designed_*.script | sed 's/\.script$//'); do
    paired "$name" >"$folder/pairs"
    quotes docs/DESIGNING.md "$name" "$folder/pairs" columns
done
told "it quotes scripts alone" "" "$(sed -n 's/^```\(..*\)$/\1/p' docs/DESIGNING.md | grep -v '^designed_')"
# A case has the name of its row, and its last weight is the number there.
awk '/^case/ { if (name) print name, weight; name = substr($0, 6) } /^weight/ { weight = $2 } END { print name, weight }' \
    crates/cases/data/designs.cases | sort >"$folder/wanted"
sed -n '/^| A step |/,/^$/s/^| \([^|]*\) | \([0-9,]*\) |$/\1 \2/p' docs/DESIGNING.md \
    | sed -e :again -e 's/,\([0-9]*\)$/\1/; t again' | sort >"$folder/got"
same "what a step holds is as the cases say"
quotes docs/RATTLE.md rust crates/session_example/src/main.rt
quotes docs/RATTLE.md session_example crates/session_example/stdout
quotes docs/RATTLE.md crates crates.txt
told "it quotes these alone" "" "$(sed -n 's/^```\(..*\)$/\1/p' docs/RATTLE.md | grep -v -x -e rust -e session_example -e crates)"

# run NAME WORD..: the script on the program with these words
run() {
    name=$1
    shift
    cp "$data/$name.replies" "$folder/wanted"
    "$program" "$@" <"$data/$name.script" >"$folder/got" 2>&1
    same "$name"
}
if [ -n "$program" ]; then
    echo "-- the tutorial, run"
    book=$folder/book.document
    drawing=$folder/drawing.document
    table=$folder/table.document
    copy=$folder/copy.document
    letter=$folder/letter.document
    run tutorial_book --new "$book"
    run tutorial_book_opened "$book"
    run tutorial_drawing --new "$drawing"
    run tutorial_table --new "$table"
    run tutorial_table_opened --as "$copy" "$table"
    run tutorial_table_copied "$copy"
    run tutorial_letter --new "$letter"
    run tutorial_letter_opened --undo 2 "$letter"
    novel=$folder/novel.document
    run tutorial_novel --new "$novel"
    # What the page has a shell write, and then what it shows.
    sed '1,/^\*\*Longer than a heap/d' docs/TUTORIAL.md >"$folder/part"
    awk '$0 == "```sh" { on = 1; next } $0 == "```" { on = 0 } on' "$folder/part" >"$folder/novel.sh"
    grep -x -A 3 '```' "$folder/part" | grep -A 3 '^number' >"$folder/shown"
    mkdir "$folder/shell"
    ln -s "$(realpath "$program")" "$folder/shell/geosvm"
    (cd "$folder" && PATH=$folder/shell:$PATH sh novel.sh | sed 's/^ *//') >"$folder/got" 2>&1
    { echo '41 ok'; sed '/^```/d' "$folder/shown"; } >"$folder/wanted"
    same "the novel, longer than a heap"
    told "the table is the saved one again" "bytes 6e61696c0a000000 blocks 0001 0002" \
        "$(printf 'aget 0002 0010 0\nlist\n' | "$program" "$table" | tr '\n' ' ' | sed 's/ $//')"
    told "a file that isn't there" "geosvm: open 2 File
geosvm: $folder/missing: no such file" "$("$program" "$folder/missing" </dev/null 2>&1)"
    told "a file that is no document" "geosvm: open 4 NotDocument" "$("$program" "$folder/zeros" </dev/null 2>&1)"
    told "a save-as of a file to itself" "geosvm: FILE2 is FILE" "$("$program" --as "$copy" "$copy" </dev/null 2>&1)"
    document >"$folder/wanted"
    "$program" --new "$folder/got" </dev/null
    told "a new document has the bytes that the magic lines were tried on" "" "$(cmp "$folder/wanted" "$folder/got" 2>&1)"
    printf 'newheap 7\n# a note\nvfree 0002\nlist' | "$program" --new --bail --echo "$folder/bailed" >"$folder/got" 2>"$folder/errors"
    told "a run that bails" "1 geosvm: line 3 is refused" "$? $(cat "$folder/errors")"
    awk '/writes this, and ends with status 1:$/ { found = 1 } found && $0 == "```" { if (on) exit; on = 1; next } on' docs/SCRIPT.md >"$folder/wanted"
    same "it writes what SCRIPT.md shows"
    if there file; then
        for made in "$book" "$drawing" "$table" "$copy" "$letter" "$novel"; do
            told "${made##*/} is a document" "GEOS VM document" "$(file -b -m "$magic" "$made" | cut -d , -f 1)"
        done
    fi
fi

echo "$passed passed, $failed failed"
[ "$failed" = 0 ]
