#!/bin/sh
# Needs: gcc g++ objdump pkg-config
# Tries embedding/geosvm.hpp, where install.sh puts it: cpp_header.cc and embedding/outline.cc are compiled by
# pkg-config, as C++17 and as C++20, by g++ and, where it is there, by clang++, and run, once more by valgrind, where
# that is there. Each call of geosvm.h is in the header and in the test, and the sentences of faults are those of
# geosvm.h.
#
#     sh checks/cpp_header.sh crates/geosvm/out/geosvm crates/geosdoc/out/geosdoc embedding/out/libgeosvm.a
set -u
root=$(cd "$(dirname "$0")/.." && pwd)
folder=$(mktemp -d)
trap 'rm -rf "$folder"' EXIT
mkdir "$folder/programs"
cp "$1" "$folder/programs/geosvm" && cp "$2" "$folder/programs/geosdoc" && cp "$3" "$folder/libgeosvm.a" || exit 2
cd "$folder" || exit 2
passed=0
failed=0

# told NAME WANTED GOT
told() {
    if [ "$2" = "$3" ]; then
        passed=$((passed + 1))
        echo "ok      $1"
    else
        failed=$((failed + 1))
        echo "FAILED  $1: wanted '$2', got '$3'"
    fi
}

echo "-- installed"
prefix=$folder/installed
PROGRAMS=$folder/programs LIBRARY=$folder/libgeosvm.a sh "$root/install.sh" "$prefix" >said 2>&1
told "it installs" "0" "$?"
told "the header is there" "" "$(cmp "$root/embedding/geosvm.hpp" "$prefix/include/geosvm.hpp" 2>&1)"
export PKG_CONFIG_PATH="$prefix/lib/pkgconfig"
export LD_LIBRARY_PATH="$prefix/lib"
flags=$(pkg-config --cflags --libs geosvm)

echo "-- calls"
# It opens files by their paths itself, and has names by geosvm_fault_name.
gcc -E -P "$prefix/include/geosvm.h" | grep -o '\bgeosvm_[a-z_]*(' | tr -d '(' | grep -v geosvm_io_ | sort -u |
    grep -vx 'geosvm_open_path\|geosvm_save_as_path\|geosvm_code_name' >calls
told "there are 60 calls or more" "yes" "$([ "$(wc -l <calls)" -ge 60 ] && echo yes)"
grep -oh '\bgeosvm_[a-z_]*' "$prefix/include/geosvm.hpp" "$prefix/include/geosvm_types.hpp" | sort -u >used
told "the header has each call" "" "$(comm -23 calls used)"
# Those that have a name of their own, or are met by it.
sed 's/^geosvm_//' calls | grep -vx 'delete\|fault_name\|code_text\|last_error\|version' >members
echo erase >>members
while IFS= read -r name; do
    grep -q "\(\.\|->\|session::\)$name(" "$root/checks/cpp_header.cc" || echo "$name"
done <members >untried
told "the test calls each member" "" "$(cat untried)"

# compiled NAME COMPILER..: the test and the example. The header is in two files of the test: so it can be linked twice.
compiled() {
    name=$1
    shift
    mkdir "$name"
    for program in checks/cpp_header embedding/outline; do
        # shellcheck disable=SC2086
        "$@" -Wall -Wextra -Werror -pedantic -DNDEBUG "$root/$program.cc" second.cc $flags -o "$name/${program##*/}" ||
            return 1
    done
}
# ran NAME COMMAND..: runs both in an empty folder, by the command
ran() {
    name=$1
    shift
    rm -rf empty && mkdir empty
    (cd empty && "$@" "../$name/cpp_header") >tried 2>&1
    told "$name: the test runs" "0 0 failed" "$? $(sed -n '$s/^[0-9]* passed, //p' tried)"
    grep -v ' passed, 0 failed$' tried | head -n 12
    rm -rf empty && mkdir empty
    (cd empty && "$@" "../$name/outline") >outlined 2>&1
    told "$name: the example prints what it did" "0 " \
        "$? $(diff "$root/embedding/outline_cc.output" outlined | head -n 6)"
    (cd empty && "../$name/outline") >outlined 2>&1
    told "$name: a second run opens what is there, and has its notes twice" "0 2" \
        "$? $(sed -n '/^opened again/,$p' outlined | grep -c Garden)"
}

echo "-- programs over it"
echo '#include <geosvm.hpp>' >second.cc
for compiler in g++ clang++; do
    command -v "$compiler" >where || continue
    for standard in c++17 c++20; do
        compiled "$compiler-$standard" "$compiler" "-std=$standard"
        told "$compiler-$standard: both compile, without a warning" "0" "$?"
        ran "$compiler-$standard" env
    done
done
./g++-c++17/cpp_header --faults >sentences
told "there is a sentence for each code" "34" "$(wc -l <sentences)"
sed -n 's,^#define GEOSVM_[A-Z_]* *\([0-9][0-9]*\) *\/\* \(.*\) \*\/$,\1 \2,p' "$root/embedding/geosvm.h" >wanted
told "geosvm.h has 15 sentences or more" "yes" "$([ "$(wc -l <wanted)" -ge 15 ] && echo yes)"
told "where geosvm.h has one it is that" "" "$(grep -vxF -f sentences wanted)"
if command -v valgrind >where; then
    ran g++-c++17 valgrind -q --error-exitcode=9 --leak-check=full --show-leak-kinds=all
fi

echo "$passed passed, $failed failed"
[ "$failed" = 0 ]
