#!/bin/sh
# The gate: `rt ci`, which proves each crate and runs the tests and the programs, and then the checks on the programs that it built. What
# each came to stands on a line; a failure ends nothing. The last line is `N passed, M failed`, the sum of all counts.
#
#     sh test.sh [--long]                      rt ci, and then the checks, with --long in their long forms
#     sh test.sh --checks [--long] [NAME..]    the checks alone, or those of these names, on the programs as they were built last
set -u
cd "$(dirname "$0")" || exit 2
root=$(pwd)
# program NAME CRATE: where a program is. PROGRAMS may name a folder that has them all.
program() {
    printf %s "${PROGRAMS:-$root/crates/$2/out}/$1"
}
geosvm=$(program geosvm geosvm)
geosdoc=$(program geosdoc geosdoc)

# How many documents are made by chance, how often edits are, and how many of large arrays, of how many bytes of a file each is changed, and
# which requests for memory are refused.
documents=100
times=10
edits=6000
every=4
requests=5
long=
if [ "${LONG:-}" ]; then
    documents=1000
    times=200
    edits=1000000
    every=1
    requests=1
    long=--long
fi

# check NAME: runs it.
check() {
    case $1 in
    embedding) OVER_CI=yes sh embedding/build.sh $long ;;
    each_request) sh checks/each_request.sh "$geosvm" $requests ;;
    failing_calls) python3 checks/failing_calls.py "$geosvm" "$geosdoc" ;;
    dumped_documents) python3 checks/dumped_documents.py "$geosvm" "$geosdoc" $documents ;;
    compared_documents) python3 checks/compared_documents.py "$geosvm" "$geosdoc" $documents ;;
    salvaged) python3 checks/salvaged.py "$geosvm" "$geosdoc" $documents ;;
    summed_documents) python3 checks/summed_documents.py "$geosvm" "$geosdoc" $((documents / 5)) ;;
    checksums_given) python3 checks/checksums_given.py "$geosvm" "$geosdoc" $((documents / 25)) ;;
    limits) python3 checks/limits.py "$geosvm" "$geosdoc" $long ;;
    lent_bytes) sh checks/lent_bytes.sh ;;
    heap_by_chance) python3 checks/heap_by_chance.py "$geosvm" $((times * 1000)) ;;
    large_by_chance) python3 checks/large_by_chance.py "$geosvm" $times $edits ;;
    memory_given_back) python3 checks/memory_given_back.py "$geosvm" ;;
    edits_by_chance) python3 checks/edits_by_chance.py "$geosvm" $times ;;
    designs_measured) python3 checks/designs_measured.py "$geosvm" ;;
    examples) python3 checks/examples.py "$geosvm" ;;
    looks) python3 checks/looks.py "$geosvm" "$geosdoc" ;;
    stat_counted) python3 checks/stat_counted.py "$geosvm" "$geosdoc" $documents ;;
    changed_bytes) python3 checks/changed_bytes.py "$geosvm" "$geosdoc" crates/geosdoc/data/small_document.bin $every ;;
    instructions) python3 checks/instructions.py "$geosvm" ;;
    bench) (cd bench && GEOSVM=$geosvm python3 -m unittest) ;;
    made_beside) sh checks/made_beside.sh "$geosvm" ;;
    ways_to_start) sh checks/ways_to_start.sh "$geosvm" "$geosdoc" ;;
    program_ends) python3 checks/program_ends.py "$geosvm" "$geosdoc" ;;
    pages_checked) sh checks/pages_checked.sh "$geosvm" ;;
    prompts) python3 checks/prompts.py "$geosvm" ;;
    commands_listed) sh checks/commands_listed.sh ;;
    # These link the library that `embedding` has made.
    failing_calls_from_c)
        python3 checks/failing_calls.py "$geosvm" "$geosdoc" --library embedding/out/libgeosvm.a
        ;;
    installed) sh checks/installed.sh "$geosvm" "$geosdoc" embedding/out/libgeosvm.a ;;
    python_package) sh checks/python_package.sh "$geosvm" "$geosdoc" embedding/out/libgeosvm.a ;;
    cpp_header) sh checks/cpp_header.sh "$geosvm" "$geosdoc" embedding/out/libgeosvm.a ;;
    rust_crate) sh checks/rust_crate.sh "$geosvm" "$geosdoc" embedding/out/libgeosvm.a ;;
    outline_editor) python3 checks/outline_editor.py "$geosvm" "$geosdoc" embedding/out/libgeosvm.a $long ;;
    *) echo "there is no check $1"; return 2 ;;
    esac
}
# Those that take longest come first, and behind them what needs one of them.
first="embedding lent_bytes each_request failing_calls limits dumped_documents salvaged summed_documents checksums_given looks memory_given_back edits_by_chance heap_by_chance large_by_chance bench"
first="$first instructions made_beside stat_counted compared_documents changed_bytes program_ends examples designs_measured pages_checked ways_to_start"
first="$first prompts commands_listed"
second="cpp_header outline_editor rust_crate python_package installed failing_calls_from_c"

# script_of NAME: the file of a check.
script_of() {
    case $1 in
    embedding) echo embedding/build.sh ;;
    bench) echo bench/test_workloads.py ;;
    failing_calls_from_c) echo checks/failing_calls.py ;;
    *) find checks -name "$1.py" -o -name "$1.sh" ;;
    esac
}

# has_needs NAME: whether the machine has what the first line of its file names
has_needs() {
    script=$(script_of "$1")
    [ -f "$script" ] || return 0
    needs=$(sed -n 's/^# Needs: //p' "$script" | head -n 1)
    echo "needs: ${needs:-nothing, it says nowhere what}"
    [ "$needs" ] || return 1
    for need in $needs; do
        command -v "$need" >/dev/null || { echo "there is no $need"; return 1; }
    done
}

# Runs one check, and tells what it came to.
if [ "${1:-}" = --one ]; then
    began=$(date +%s)
    { has_needs "$2" && check "$2"; } >"$3/$2" 2>&1 </dev/null
    status=$?
    took=$(($(date +%s) - began))
    if [ "$status" = 0 ]; then
        echo "passed" >"$3/$2.status"
        echo "$2: passed ($(tail -n 1 "$3/$2"); $took s)"
    else
        echo "failed" >"$3/$2.status"
        { echo "$2: FAILED, with status $status, after $took s"; tail -n 12 "$3/$2" | cut -c 1-400 | sed 's/^/    /'; } >"$3/$2.told"
        cat "$3/$2.told"
    fi
    exit 0
fi

# As many checks at once as there are processors. Left to itself the runner leaves some idle, since it asks for more memory than checks
# take: 3 GB each are enough.
jobs_at_once() {
    processors=$(nproc)
    memory=$(($(sed -n 's/^MemAvailable: *\([0-9]*\) kB$/\1/p' /proc/meminfo) / 3000000))
    echo $((memory < 1 ? 1 : memory < processors ? memory : processors))
}

proves=yes
named=
for word in "$@"; do
    case $word in
    --checks) proves= ;;
    --long) export LONG=yes ;;
    -*) echo "usage: sh test.sh [--checks [NAME..]] [--long]" >&2; exit 2 ;;
    *) named="$named $word" ;;
    esac
done
if [ "$named" ]; then
    proves=
    first=
    second=
    for name in $named; do
        case $name in
        failing_calls_from_c | installed | cpp_header | python_package | rust_crate | outline_editor) second="$second $name" ;;
        *) first="$first $name" ;;
        esac
    done
fi

# Crates wait for each other, from the model up to the shell, and in an `rt ci` of so many jobs each proof takes one processor. So where there
# is memory for it another `rt ci` proves these, each by as many processors as are free: in a copy, without must-fail edits. The first one is
# behind it in line, tries the edits, and takes what the other has proved, since each keeps what it passes. That is no part of the verdict:
# what the other doesn't prove the first one does. Not each kit keeps what it passes: there it would prove all twice.
proves_ahead() {
    tools=$(dirname "$(realpath "$(command -v rt)")")
    grep -qs rattle-kept "$tools"/* || return
    kept=$(dirname "$(dirname "$tools")")/rattle-kept
    [ "$(sed -n 's/^MemAvailable: *\([0-9]*\) kB$/\1/p' /proc/meminfo)" -gt 18000000 ] && [ "$(nproc)" -gt 2 ] || return
    mkdir -p -m 700 "$kept" 2>/dev/null && [ -O "$kept" ] && [ -w "$kept" ]
}
prove_ahead() {
    copy=$folder/ahead
    mkdir -p "$copy/.git" "$copy/crates" && cp HANDLES "$copy" && sed '/^geos_shell:/q' crates.txt >"$copy/crates.txt" || return
    sed -n 's/^\([a-z][a-z_]*\)[ a-z]*:.*/\1/p' "$copy/crates.txt" | while read -r crate; do
        mkdir "$copy/crates/$crate"
        for part in src specs proofs; do
            [ ! -d "crates/$crate/$part" ] || cp -r "crates/$crate/$part" "$copy/crates/$crate"
        done
    done
    cd "$copy" && RT_JOBS='' exec rt ci >"$folder/proved" 2>&1
}
# It has begun with what all others wait for once the first of them is proved.
wait_for_first() {
    until grep -q '^rt: geos_model \(proved\|is kept\)' "$folder/proved" 2>/dev/null; do
        kill -0 "$ahead" 2>/dev/null || return
        sleep 1
    done
}

# The library for C is proved and built once more, which takes longest of all. So that begins, beside `rt ci` and with it in line, as soon
# as all below it are proved: in a copy, since `rt ci` is at work here.
begin_early() {
    copy=$folder/copy
    until [ "$(grep -c '^rt: \(geos_replies\|c_sessions\) \(proved\|is kept\)' "$folder/ci" 2>/dev/null)" = 2 ]; do
        [ -e "$folder/ended" ] && return
        sleep 2
    done
    # Nothing that `rt ci` reads gets a second name, which it would take for a change: libraries alone do.
    mkdir "$copy" "$copy/.git" && cp -r embedding crates.txt HANDLES "$copy" || return
    for crate in crates/*/; do
        mkdir -p "$copy/$crate/out"
        for part in src specs proofs c; do
            [ ! -d "$crate$part" ] || cp -r "$crate$part" "$copy/$crate"
        done
        [ ! -d "${crate}out/rlib" ] || cp -al "${crate}out/rlib" "$copy/${crate}out/"
    done
    (cd "$copy" && cp "$root/test.sh" . && nice -n 10 sh test.sh --one embedding "$folder") >"$folder/early" 2>&1
    mkdir -p embedding/out && cp "$copy/embedding/out/libgeosvm.a" embedding/out/
}

folder=$(mktemp -d)
ahead=
trap '[ ! "$ahead" ] || kill "$ahead" 2>/dev/null; rm -rf "$folder"' EXIT
passed=0
failed=0
if [ "$proves" ]; then
    jobs=${RT_JOBS:-$(jobs_at_once)}
    if proves_ahead; then
        (prove_ahead) &
        ahead=$!
        wait_for_first
    fi
    begin_early &
    early=$!
    RT_JOBS=$jobs nice -n 10 rt ci 2>&1 | tee "$folder/ci"
    touch "$folder/ended"
    counts=$(sed -n 's/^.*\<\([0-9][0-9]*\) passed, \([0-9][0-9]*\) failed.*$/\1 \2/p' "$folder/ci" | tail -n 1)
    if [ "$counts" ]; then
        passed=${counts% *}
        failed=${counts#* }
    else
        echo "rt ci: FAILED, it ended without its counts"
        failed=1
    fi
fi

# Each is a process of its own, four at a time. What began early is waited for before the one that needs it.
run_each() {
    # shellcheck disable=SC2086
    printf '%s\n' $1 | xargs -r -P 4 -I NAME sh test.sh --one NAME "$folder"
}
if [ -e "$folder/copy" ] && ! kill -0 "$early" 2>/dev/null; then
    cat "$folder/early"
    run_each "$second ${first#embedding }"
elif [ -e "$folder/copy" ]; then
    run_each "${first#embedding }"
    wait "$early"
    cat "$folder/early"
    run_each "$second"
else
    run_each "$first"
    run_each "$second"
fi
for name in $first $second; do
    if [ "$(cat "$folder/$name.status" 2>&1)" = passed ]; then
        passed=$((passed + 1))
    else
        failed=$((failed + 1))
    fi
done
# For install.sh, which tells it with what it installs.
if [ "$proves" ]; then
    mkdir -p embedding/out
    commit=$(git describe --always --dirty --abbrev=40 --exclude='*' 2>/dev/null)
    echo "$(date -u '+%Y-%m-%d'), of commit ${commit:-unknown}, by $(rt version): $passed passed, $failed failed" >embedding/out/gate
fi
echo "$passed passed, $failed failed"
[ "$failed" = 0 ]
