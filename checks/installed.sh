#!/bin/sh
# Needs: gcc g++ rustc nm objdump pkg-config file groff man dpkg dpkg-deb
# Installs the programs and the library for C into a folder of its own, by install.sh, and tries what lies there: a program in C and in C++
# over the shared library and over the archive, the examples of embedding/ over the shared one, which names each exports, the version
# that each tells, the pages and the magic lines, an install over an old one, what is left when it is removed, and a Debian package.
#
#     sh checks/installed.sh crates/geosvm/out/geosvm crates/geosdoc/out/geosdoc embedding/out/libgeosvm.a
set -u
root=$(cd "$(dirname "$0")/.." && pwd)
folder=$(mktemp -d)
trap 'rm -rf "$folder"' EXIT
mkdir "$folder/programs" "$folder/temporary"
cp "$1" "$folder/programs/geosvm" && cp "$2" "$folder/programs/geosdoc" && cp "$3" "$folder/libgeosvm.a" || exit 2
cd "$folder" || exit 2
passed=0
failed=0

# told NAME WANTED GOT
told() {
    if [ "$2" = "$3" ]; then
        passed=$((passed + 1))
        echo "ok      $1"
    else
        failed=$((failed + 1))
        echo "FAILED  $1: wanted '$2', got '$3'"
    fi
}

# installing WORD..: install.sh, of the programs and the library that this check was given
installing() {
    PROGRAMS=$folder/programs LIBRARY=$folder/libgeosvm.a TMPDIR=$folder/temporary sh "$root/install.sh" "$@" >"$folder/said" 2>&1
}

# files FOLDER: all below it but folders
files() {
    (cd "$1" && find . ! -type d) | sort
}

echo "-- installed"
prefix=$folder/installed
installing "$prefix"
told "it installs" "0" "$?"
cat said
files "$prefix" >first
export PKG_CONFIG_PATH="$prefix/lib/pkgconfig"
export LD_LIBRARY_PATH="$prefix/lib"
version=$(pkg-config --modversion geosvm)
case $version in
0.*) soname=libgeosvm.so.${version%.*} ;;
*) soname=libgeosvm.so.${version%%.*} ;;
esac
told "the links lead to the library" "$soname $prefix/lib/libgeosvm.so.$version" \
    "$(readlink "$prefix/lib/libgeosvm.so") $(realpath "$prefix/lib/libgeosvm.so")"
told "its list is what is there" "" "$(sed 's,^,./,' "$prefix/share/doc/geosvm/FILES" | sort | diff - first)"
told "nothing is left in the folder for temporary files" "" "$(ls temporary)"
for name in geosvm geosdoc; do
    told "$name is the program that was built" "" "$(cmp "programs/$name" "$prefix/bin/$name" 2>&1)"
done

echo "-- names"
gcc -E -P "$prefix/include/geosvm.h" | grep -o '\bgeosvm_[a-z_]*(' | tr -d '(' | sort -u >declared
told "there are 60 names or more" "yes" "$([ "$(wc -l <declared)" -ge 60 ] && echo yes)"
# exported WORD..: what nm lists, but for the file's name and empty lines
exported() {
    nm --defined-only "$@" | awk 'NF == 3 { print $3 }' | sort -u
}
told "the shared library exports those of geosvm.h" "" "$(exported -D "$prefix/lib/libgeosvm.so" | diff declared -)"
told "the archive exports those of geosvm.h" "" "$(exported -g "$prefix/lib/libgeosvm.a" | diff declared -)"
told "the shared library has its soname" "$soname" "$(objdump -p "$prefix/lib/libgeosvm.so" | awk '$1 == "SONAME" { print $2 }')"
told "its stack can't be run" "" "$(objdump -p "$prefix/lib/libgeosvm.so" | grep -A 1 STACK | grep -o 'flags.*x.*')"

echo "-- programs over it"
strict="-O2 -Wall -Wextra -Werror -pedantic"
# tried NAME COMPILER..: compiles installed.c, runs it, and has geosvm read its document
tried() {
    name=$1
    shift
    "$@" -o "$name" 2>&1 || return
    "./$name" "$name.document" >"$name.said" 2>&1
    told "$name runs, and the version is one" "0 $version $version $version" "$? $(cat "$name.said")"
    told "geosvm opens its document" "heap 7 28 bytes 616263" \
        "$(printf 'info 0001\nread 0001 0010\n' | "$prefix/bin/geosvm" "$name.document" 2>&1 | tr '\n' ' ' | sed 's/ $//')"
    told "geosdoc too" "opens: yes" "$("$prefix/bin/geosdoc" check "$name.document" 2>&1 | head -n 1)"
    told "the magic lines tell it" "GEOS VM document" "$(file -b -m "$prefix/share/geosvm/geosvm.magic" "$name.document" | cut -d , -f 1)"
}
# shellcheck disable=SC2086,SC2046
over_all() {
    flags=$(pkg-config --cflags --libs geosvm)
    archive="$(pkg-config --cflags geosvm) $(pkg-config --variable=libdir geosvm)/libgeosvm.a"
    tried c_shared gcc -std=c99 $strict "$root/checks/installed.c" $flags
    tried cpp_shared g++ -std=c++11 $strict -x c++ "$root/checks/installed.c" -x none $flags
    tried c_archive gcc -std=c99 $strict "$root/checks/installed.c" $archive
    tried cpp_archive g++ -std=c++11 $strict -x c++ "$root/checks/installed.c" -x none $archive
    tried c_static gcc -std=c99 $strict -static "$root/checks/installed.c" $(pkg-config --static --cflags --libs geosvm)
    for name in try container paths_try threads_try; do
        mkdir "$name" "$name/empty"
        gcc -std=c11 -O2 "$root/embedding/$name.c" $flags -lpthread -o "$name/program" || continue
        (cd "$name/empty" && ../program >../said 2>&1)
        told "embedding/$name.c over the shared library prints what it did" "" \
            "$(diff "$root/embedding/${name}_c.output" "$name/said" 2>&1 | head -n 6)"
    done
}
over_all
# loaded NAME: the library that a program loads
loaded() {
    ldd "$1" 2>&1 | sed -n 's/.*libgeosvm[^ ]* => \([^ ]*\).*/\1/p'
}
told "all five were linked, and the two that should load the shared library" "$prefix/lib/$soname $prefix/lib/$soname   " \
    "$(loaded ./c_shared) $(loaded ./cpp_shared) $(loaded ./c_archive) $(loaded ./cpp_archive) $(loaded ./c_static)"
# The programs name the kit without the letter of its version: they are proved with more than one.
kit=$(sed -n 's/^Kit: \(rattle-kit-[0-9]*\).*/\1/p' "$prefix/share/doc/geosvm/PROVED")
for name in geosvm geosdoc; do
    told "$name has the version of geosvm.h" "$name $version" "$("$prefix/bin/$name" --version | cut -d , -f 1)"
    told "$name tells the kit that PROVED has" "proved by $kit" "$("$prefix/bin/$name" --version | sed 's/.*, //')"
done

echo "-- the lines of the library's page, where nothing else is"
mkdir own own/empty
cp "$root/embedding/try.c" own/program.c && cp "$root/embedding/try.rs" own/program.rs
sed -n '/^```sh/,/^```/p' "$root/embedding/README.md" | grep -v '^```' | sed "s,PREFIX,$prefix,g" >own/lines
told "the page exports, compiles and links so often" "1 2 1" "$(grep -c '^export ' own/lines) $(grep -c '^gcc ' own/lines) $(grep -c '^rustc ' own/lines)"
# made LINE MADE OUTPUT: the line, behind that which exports, makes this, which prints that
made() {
    (cd own && rm -f a.out program && eval "$(grep '^export ' lines)" && eval "$1" && cd empty && rm -f ./* && "../$2" >../said) 2>own/errors
    told "$1" "0 " "$? $(cat own/errors)$(diff "$root/embedding/$3" own/said 2>&1 | head -n 6)"
}
while read -r line; do
    case $line in
    gcc*) made "$line" a.out try_c.output ;;
    rustc*) made "$line" program try_rs.output ;;
    esac
done <own/lines

echo "-- pages"
for page in "$prefix"/share/man/man1/*.1; do
    man -l "$page" >shown 2>errors
    told "man shows ${page##*/}" "0 " "$? $(cat errors)"
done
told "PROVED tells the kit, the commit and the library" "3" "$(grep -c '^Commit of the sources: .\|^Kit: .\|^Library: .' "$prefix/share/doc/geosvm/PROVED")"
told "it has the checksums of what is there" "" "$(sed -n '/^[0-9a-f]\{64\}  /p' "$prefix/share/doc/geosvm/PROVED" | (cd "$prefix" && sha256sum -c --quiet) 2>&1)"
if command -v xmllint >where; then told "the MIME type is XML" "" "$(xmllint --noout "$prefix/share/mime/packages/geosvm.xml" 2>&1)"; fi
if command -v update-mime-database >where; then
    cp -r "$prefix/share/mime" types
    update-mime-database types >errors 2>&1
    told "the MIME type can be used" "60:application/x-geosvm" "$(grep -a -o '60:application/x-geosvm' types/magic)"
fi

echo "-- again, and away"
# An old install, whose list has a file of an older version and two that are none of its own.
echo old >"$prefix/lib/libgeosvm.so.0.0.9"
printf '%s\n' lib/libgeosvm.so.0.0.9 ../mine bin/mine >>"$prefix/share/doc/geosvm/FILES"
echo mine | tee mine >"$prefix/bin/mine"
echo old >"$prefix/bin/geosvm"
installing "$prefix"
told "it installs over an old one" "0" "$?"
told "the old files are gone, and others stay" "./bin/mine" "$(files "$prefix" | diff first - | sed -n 's/^[<>] //p')"
told "the program is replaced" "" "$(cmp programs/geosvm "$prefix/bin/geosvm" 2>&1)"
installing --remove "$prefix"
told "it is removed" "0" "$?"
told "others' files stay" "./bin/mine mine" "$(files "$prefix") $(cat mine)"
installing --remove "$prefix"
told "what isn't there can't be removed" "1" "$?"
(umask 077 && DESTDIR=$folder/staged installing /a/prefix)
told "it installs below DESTDIR" "0" "$?"
told "all of it lies there" "" "$(cd staged/a/prefix && files . | diff "$folder/first" -)"
told "and nothing beside it" "a prefix" "$(ls staged) $(ls staged/a)"
told "pkg-config is told of the prefix alone" "prefix=/a/prefix" "$(head -n 1 staged/a/prefix/lib/pkgconfig/geosvm.pc)"
told "all may read it" "" "$(find staged/a/prefix ! -perm -444)"
for word in --other "" "$folder/two words"; do
    if installing "$word"; then got=installed; else got=refused; fi
    told "'${word##*/}' is no prefix" "refused" "$got"
done
told "and nothing was made there" "" "$(ls -d two* 2>where)"

echo "-- the Debian package"
grep -v FILES first >wanted
installing --deb "$folder"
told "it is made" "0" "$?"
deb=$folder/geosvm_${version}_amd64.deb
system=$folder/system
if [ "$(id -u)" = 0 ]; then
    mkdir -p "$system/var/lib/dpkg/info" "$system/var/lib/dpkg/updates"
    : >"$system/var/lib/dpkg/status"
    # dpkg_there WORD..: dpkg on a system of its own, which lacks the C library's package
    dpkg_there() {
        dpkg --root="$system" --log="$folder/dpkg.log" --force-depends --force-bad-path "$@" >dpkg.said 2>&1
    }
    dpkg_there -i "$deb"
    told "dpkg installs it" "0 ii" "$? $(dpkg-query --admindir="$system/var/lib/dpkg" -W -f '${db:Status-Abbrev}' geosvm | tr -d ' ')"
else
    dpkg-deb -x "$deb" "$system"
fi
told "it has what is installed else" "" "$(files "$system/usr" | diff wanted - 2>&1)"
told "its files are root's" "" "$(dpkg-deb -c "$deb" | grep -v ' root/root ')"
told "its program runs" "geosvm $version" "$("$system/usr/bin/geosvm" --version | cut -d , -f 1)"
if [ "$(id -u)" = 0 ]; then
    dpkg_there -r geosvm
    told "dpkg removes it" "0" "$?"
    told "and nothing is left" "" "$(find "$system" -name '*geos*')"
fi

echo "$passed passed, $failed failed"
[ "$failed" = 0 ]
