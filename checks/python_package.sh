#!/bin/sh
# Needs: python3 gcc objdump
# The package for Python, of python/: installs the library into a folder of its own by install.sh, the package beside it by pip, without
# the network, and runs python/tests on these, with the example of python/README.md. Where there is no pip the package is taken from its
# folder, and that is said.
#
#     sh checks/python_package.sh crates/geosvm/out/geosvm crates/geosdoc/out/geosdoc embedding/out/libgeosvm.a
set -u
root=$(cd "$(dirname "$0")/.." && pwd)
folder=$(mktemp -d)
trap 'rm -rf "$folder"' EXIT
mkdir "$folder/programs" "$folder/temporary" "$folder/package"
cp "$1" "$folder/programs/geosvm" && cp "$2" "$folder/programs/geosdoc" && cp "$3" "$folder/libgeosvm.a" || exit 2
# A copy, since pip and Python write beside what they read.
cp -r "$root/python" "$folder/python" || exit 2
cd "$folder" || exit 2
unset GEOSVM_LIBRARY
passed=0
failed=0

# told NAME WANTED GOT
told() {
    if [ "$2" = "$3" ]; then
        passed=$((passed + 1))
        echo "ok      $1"
    else
        failed=$((failed + 1))
        echo "FAILED  $1: wanted '$2', got '$3'"
    fi
}

echo "-- installed"
PROGRAMS=$folder/programs LIBRARY=$folder/libgeosvm.a TMPDIR=$folder/temporary sh "$root/install.sh" "$folder/installed" >said 2>&1
told "the library is installed" "0" "$?"
soname=$(objdump -p installed/lib/libgeosvm.so | awk '$1 == "SONAME" { print $2 }')
if python3 -m pip --version >where 2>&1; then
    PIP_ROOT_USER_ACTION=ignore python3 -m pip install --quiet --no-index --disable-pip-version-check --target package ./python >said 2>&1
    told "pip installs the package, without the network" "0 " "$? $(cat said)"
    told "it has the version of geosvm.h" "$(sed -n 's/^Version: //p' installed/lib/pkgconfig/geosvm.pc)" \
        "$(sed -n 's/^Version: //p' package/geosvm-*.dist-info/METADATA)"
    told "it has all files of the package" "" "$(cd python/geosvm && for file in *.py py.typed; do cmp "$file" "$folder/package/geosvm/$file" 2>&1; done)"
else
    echo "there is no pip: the package is taken from its folder, and wasn't installed"
    cp -r python/geosvm package/
fi

echo "-- tests"
export PYTHONPATH="$folder/package" GEOSVM_HEADER="$folder/installed/include/geosvm.h"
# loaded: where the package and the library that it loads are
loaded() {
    python3 -c 'import geosvm; print(geosvm.__file__, *{line.split()[-1] for line in open("/proc/self/maps") if "libgeosvm" in line})' 2>&1
}
wanted="$folder/package/geosvm/__init__.py $folder/installed/lib/libgeosvm.so.$(sed -n 's/^Version: //p' installed/lib/pkgconfig/geosvm.pc)"
told "it finds the library where the system looks" "$wanted" "$(LD_LIBRARY_PATH="$folder/installed/lib" loaded)"
export GEOSVM_LIBRARY="$folder/installed/lib/$soname"
told "it finds the library that it is told" "$wanted" "$(loaded)"
python3 -W error::ResourceWarning -m unittest discover -s python/tests >said 2>&1
told "the tests, with the example of the page" "0 OK" "$? $(tail -n 1 said)"
grep '^Ran ' said
[ "$failed" = 0 ] || cat said

echo "$passed passed, $failed failed"
[ "$failed" = 0 ]
