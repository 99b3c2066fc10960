#!/bin/sh
# Needs: cargo rustc gcc pkg-config python3
# The crates for Rust, of rust/: installs the library into a folder of its own by install.sh, and runs their tests on it,
# with the examples of their documentation, and what these say must not compile, each with the error that stands there.
# Cargo asks no network. Then a program of its own names the crate by its path: that is examples/ledger.rs, over the shared
# library and with the library in it. Where they are there clippy and rustfmt look at all of it, and valgrind at the tests but
# those by chance.
#
#     sh checks/rust_crate.sh crates/geosvm/out/geosvm crates/geosdoc/out/geosdoc embedding/out/libgeosvm.a
set -u
root=$(cd "$(dirname "$0")/.." && pwd)
folder=$(mktemp -d)
trap 'rm -rf "$folder"' EXIT
mkdir "$folder/programs" "$folder/temporary"
cp "$1" "$folder/programs/geosvm" && cp "$2" "$folder/programs/geosdoc" && cp "$3" "$folder/libgeosvm.a" || exit 2
# A copy, since cargo writes beside what it reads.
mkdir "$folder/rust" && (cd "$root/rust" && tar -cf - --exclude=target .) | tar -xf - -C "$folder/rust" || exit 2
cd "$folder/rust" || exit 2
unset GEOSVM_LIB_DIR RUSTFLAGS CARGO_BUILD_TARGET
export GEOSVM_HEADER="$folder/installed/include/geosvm.h" TMPDIR="$folder/temporary"
export CARGO_TARGET_DIR="$folder/target" CARGO_NET_OFFLINE=true CARGO_TERM_COLOR=never
passed=0
failed=0

# told NAME WANTED GOT
told() {
    if [ "$2" = "$3" ]; then
        passed=$((passed + 1))
        echo "ok      $1"
    else
        failed=$((failed + 1))
        echo "FAILED  $1: wanted '$2', got '$3'"
    fi
}

# succeeds NAME COMMAND..: what it writes goes to the file said, and is shown where it fails
succeeds() {
    name=$1
    shift
    "$@" >"$folder/said" 2>&1
    status=$?
    told "$name" 0 "$status"
    [ "$status" = 0 ] || tail -n 40 "$folder/said"
}

echo "-- installed"
PROGRAMS=$folder/programs LIBRARY=$folder/libgeosvm.a sh "$root/install.sh" "$folder/installed" >"$folder/said" 2>&1
told "the library is installed" 0 "$?"
version=$(sed -n 's/^Version: //p' "$folder/installed/lib/pkgconfig/geosvm.pc")
told "the crates have its version" "$version" "$(sed -n 's/^version = "\(.*\)"/\1/p' Cargo.toml)"

echo "-- without the library"
mkdir "$folder/elsewhere"
PKG_CONFIG_LIBDIR="$folder/elsewhere" cargo check --locked >"$folder/said" 2>&1
told "where there is none that is told" "101 yes" "$? $(grep -q 'geosvm-sys: ' "$folder/said" && echo yes)"
for other in 0.0.9 0.99.0 1.0.0; do
    sed "s/^Version: .*/Version: $other/" "$folder/installed/lib/pkgconfig/geosvm.pc" >"$folder/elsewhere/geosvm.pc"
    PKG_CONFIG_LIBDIR="$folder/elsewhere" cargo check --locked >"$folder/said" 2>&1
    told "version $other is refused" "101 yes" "$? $(grep -q "'geosvm [<>]=* [0-9.]*'" "$folder/said" && echo yes)"
done

echo "-- tests"
export PKG_CONFIG_PATH="$folder/installed/lib/pkgconfig" LD_LIBRARY_PATH="$folder/installed/lib"
succeeds "they are built" cargo build --locked --workspace
succeeds "the tests, and the examples of the documentation" cargo test --locked --workspace
sed -n 's/^test result: ok\. \([0-9]*\) passed.*/\1/p' "$folder/said" >"$folder/counts"
echo "$(awk '{ sum += $1 } END { print sum + 0 }' "$folder/counts") tests"
told "nothing was left out" "" "$(grep -E '[1-9][0-9]* (failed|ignored)' "$folder/said")"
succeeds "what must not compile has the error that stands there" \
    python3 "$root/checks/rust_misuse.py" "$folder/rust/geosvm/src" "$CARGO_TARGET_DIR/debug"
tail -n 1 "$folder/said"

echo "-- all of it"
gcc -E -P "$folder/installed/include/geosvm.h" | grep -o '\bgeosvm_[a-z_]*(' | tr -d '(' | grep -v geosvm_io_ | sort -u >"$folder/calls"
told "there are 80 calls or more" yes "$([ "$(wc -l <"$folder/calls")" -ge 80 ] && echo yes)"
grep -oh '\bgeosvm_[a-z_]*' geosvm/src/*.rs | sort -u >"$folder/used"
told "the crate has each call, but fault_name, for which code_name stands" geosvm_fault_name \
    "$(comm -23 "$folder/calls" "$folder/used")"
sed -n '/^| Rust | C/,/^$/p' README.md | grep -v '| the same |$' | sed 's/.*| \(.*\) |$/\1/' | grep -o '[a-z_]*' >"$folder/named"
sed -n 's/^\(.*\) | the same.*|$/\1/p' README.md | grep -o '[a-z_]*' >>"$folder/named"
told "the page has each call" "" "$(sed 's/^geosvm_//' "$folder/calls" | grep -vxF -f "$folder/named")"
sed -n 's/^ *pub \(unsafe \)*fn \([a-z_]*\).*/\2/p' geosvm/src/*.rs | sort -u >"$folder/methods"
told "there are 100 methods or more" yes "$([ "$(wc -l <"$folder/methods")" -ge 100 ] && echo yes)"
while IFS= read -r name; do
    grep -q "\b$name(\|::$name\b" geosvm/tests/*.rs geosvm/tests/common/*.rs || echo "$name"
done <"$folder/methods" >"$folder/untried"
told "the tests call each method" "" "$(cat "$folder/untried")"

echo "-- a program of its own"
mkdir -p "$folder/program/src"
cp geosvm/examples/ledger.rs "$folder/program/src/main.rs"
cat >"$folder/program/Cargo.toml" <<'END'
[package]
name = "program"
version = "0.0.0"
edition = "2021"

[features]
static = ["geosvm/static"]

[dependencies]
geosvm = { path = "../rust/geosvm" }
END
cd "$folder/program" || exit 2
for form in shared static; do
    if [ $form = static ]; then words="--features static" && unset LD_LIBRARY_PATH; else words=; fi
    # shellcheck disable=SC2086
    succeeds "$form: it is built" cargo build $words
    mkdir "$folder/$form"
    cp "$CARGO_TARGET_DIR/debug/program" "$folder/$form/"
    (cd "$folder/$form" && ./program) >"$folder/said" 2>&1
    told "$form: it prints what it did" "0 " "$? $(diff "$root/rust/geosvm/examples/ledger.output" "$folder/said" | head -n 6)"
    (cd "$folder/$form" && ./program) >"$folder/said" 2>&1
    told "$form: a second run goes on in what is there" "0 2" "$? $(sed -n '/^Opened again/,$p' "$folder/said" | grep -c 'paid in')"
    "$folder/programs/geosdoc" check "$folder/$form/ledger.document" >"$folder/said" 2>&1
    told "$form: its document is whole" 0 "$?"
    told "$form: it wants the shared library, or not" "$([ $form = shared ] && echo 1 || echo 0)" \
        "$(ldd "$folder/$form/program" | grep -c libgeosvm)"
done
(cd "$folder/static" && ./program /nowhere/a.document) >"$folder/said" 2>&1
told "it tells why it can't" "1 yes" "$? $(grep -q 'ledger: /nowhere/a.document: File: .*No such file' "$folder/said" && echo yes)"

cd "$folder/rust" || exit 2
export LD_LIBRARY_PATH="$folder/installed/lib"
if cargo clippy --version >"$folder/said" 2>&1; then
    succeeds "clippy finds nothing" cargo clippy --locked --workspace --all-targets -- -D warnings
fi
if cargo fmt --version >"$folder/said" 2>&1; then succeeds "it is formatted" cargo fmt --all --check; fi
RUSTDOCFLAGS="-D warnings" succeeds "its documentation is made" cargo doc --locked --workspace --no-deps
if command -v valgrind >"$folder/said"; then
    export CARGO_TARGET_X86_64_UNKNOWN_LINUX_GNU_RUNNER="valgrind -q --error-exitcode=9 \
        --leak-check=full --show-leak-kinds=definite,indirect --errors-for-leak-kinds=definite,indirect"
    succeeds "valgrind finds nothing in the tests" \
        cargo test --locked -p geosvm --tests -- --test-threads=1 --skip edits_by_chance
fi

echo "$passed passed, $failed failed"
[ "$failed" = 0 ]
