#!/bin/sh
# Needs: gcc objdump
# Installs the programs, the library for C and C++ with its headers, and their pages:
#
#     sh install.sh PREFIX             below PREFIX, as /usr/local or ~/.local; with DESTDIR set, below that
#     sh install.sh --remove PREFIX    takes away again what was installed there
#     sh install.sh --deb [FOLDER]     makes geosvm_VERSION_amd64.deb, in the folder or here
#
# What isn't built yet is built first, by `rt run` and by embedding/build.sh, which prove it. Else what `rt ci` and embedding/build.sh left
# is taken as it is. With PROGRAMS set to a folder of both programs, or LIBRARY to a libgeosvm.a, these are taken. A file that is there is
# replaced by one that was written beside it, so nobody ever finds a part of one.
set -eu
here=$(cd "$(dirname "$0")" && pwd)
umask 022

stop() {
    echo "install.sh: $1" >&2
    exit 1
}

# The version of geosvm.h, and its first number.
number() {
    sed -n "s/^#define GEOSVM_VERSION_$1 //p" "$here/embedding/geosvm.h"
}
major=$(number MAJOR)
version=$major.$(number MINOR).$(number PATCH)
# The versions with which a program that was linked goes on to run. Before 1.0 a session may be of another size in each 0.N.
series=$major
[ "$major" != 0 ] || series=0.$(number MINOR)

# built FILE COMMAND..: makes a file by the command, in $folder, where it isn't there
built() {
    file=$1
    shift
    [ -f "$file" ] && return
    command -v rt >/dev/null || stop "$file isn't built, and there is no rt of the Rattle kit to build it"
    echo "builds $file, for which each crate below it is proved first, which may take an hour" >&2
    (cd "$folder" && "$@" >&2) </dev/null || stop "$file can't be built"
    [ -f "$file" ] || stop "$file wasn't built"
}

# Finds all that is installed, and builds what lacks.
find_built() {
    programs=${PROGRAMS:-$work/programs}
    if [ -z "${PROGRAMS:-}" ]; then
        mkdir "$programs"
        for name in geosvm geosdoc; do
            folder=$here/crates/$name
            built "$folder/out/$name" rt run -- --version
            cp "$folder/out/$name" "$programs/"
        done
    fi
    library=${LIBRARY:-$here/embedding/out/libgeosvm.a}
    folder=$here
    [ "${LIBRARY:-}" ] || built "$library" sh embedding/build.sh
    for file in "$programs/geosvm" "$programs/geosdoc" "$library"; do
        [ -f "$file" ] || stop "there is no $file"
    done
}

# make_shared OUT: the shared library, of the archive
make_shared() {
    echo '{ global: geosvm_*; local: *; };' >"$work/names"
    gcc -shared -Wl,-soname,"libgeosvm.so.$series" -Wl,--version-script="$work/names" -Wl,-z,defs,-z,relro,-z,now,-z,noexecstack \
        -Wl,--whole-archive "$library" -Wl,--no-whole-archive -o "$1"
}

# write_pkgconfig OUT
write_pkgconfig() {
    cat >"$1" <<END
prefix=$prefix
libdir=\${prefix}/lib
includedir=\${prefix}/include

Name: geosvm
Description: Documents of blocks and heaps in a file, with exact undo
Version: $version
Libs: -L\${libdir} -lgeosvm
Cflags: -I\${includedir}
END
}

# write_mime OUT: the type of a document, by the bytes that docs/geosvm.magic goes by
write_mime() {
    cat >"$1" <<'END'
<?xml version="1.0" encoding="UTF-8"?>
<mime-info xmlns="http://www.freedesktop.org/standards/shared-mime-info">
  <mime-type type="application/x-geosvm">
    <comment>GEOS VM document</comment>
    <magic priority="60">
      <match type="string" offset="0" value="GVMF"/>
    </magic>
  </mime-type>
</mime-info>
END
}

# The commit of the sources, with -dirty behind it where they were changed since.
commit() {
    git -C "$here" describe --always --dirty --abbrev=40 --exclude='*' 2>/dev/null || echo "unknown, since this is no git clone"
}

# write_proved OUT: what was proved, by which kit
write_proved() {
    cat >"$1" <<END
geosvm $version, made for installing on $(date -u '+%Y-%m-%d %H:%M UTC')

Commit of the sources: $(commit)
Kit: $(rt version 2>/dev/null || echo "not on this machine's path")
Last run of the gate here: $(cat "$here/embedding/out/gate" 2>/dev/null || echo "none is noted")
Programs: $([ "${PROGRAMS:-}" ] && echo "taken from $PROGRAMS; how they were built isn't known here" || echo "crates/*/out, by rt")
Library: $([ "${LIBRARY:-}" ] && echo "taken from $LIBRARY; how it was built isn't known here" || echo "embedding/out, by rt and gcc")

What rt builds in crates/*/out and for embedding/out was proved: each function meets its contract, is safe and ends, on the
premises that PROMISES.md, beside this file, has with each promise. The gate proves all of it from nothing, tries changes that
the prover must refuse, and runs the tests. Where its commit isn't that of the sources, what is installed may be of either.

Not proved are the C sources of the library (embedding/channel.c, files.c, sessions.c, paths.c, copying.c, codes.c, version.c)
and geosvm.hpp, which are tested, and what made the programs run: the kit, gcc, the C library and the machine.

SHA-256 of the files as they were installed:
$(cd "$tree$prefix" && sha256sum bin/* lib/libgeosvm.a "lib/libgeosvm.so.$version" include/*)
END
}

# place MODE SOURCE NAME: a file of the tree
place() {
    install -D -m "$1" "$2" "$tree$prefix/$3"
}

# write_tree: all that is installed, below $tree$prefix
write_tree() {
    find_built
    for name in geosvm geosdoc; do
        place 755 "$programs/$name" bin/$name
        place 644 "$here/docs/$name.1" share/man/man1/$name.1
    done
    place 644 "$library" lib/libgeosvm.a
    make_shared "$work/shared"
    place 644 "$work/shared" "lib/libgeosvm.so.$version"
    ln -s "libgeosvm.so.$version" "$tree$prefix/lib/libgeosvm.so.$series"
    ln -s "libgeosvm.so.$series" "$tree$prefix/lib/libgeosvm.so"
    for name in geosvm.h geosvm.hpp geosvm_types.hpp; do place 644 "$here/embedding/$name" include/$name; done
    write_pkgconfig "$work/pc"
    place 644 "$work/pc" lib/pkgconfig/geosvm.pc
    place 644 "$here/docs/geosvm.magic" share/geosvm/geosvm.magic
    write_mime "$work/mime"
    place 644 "$work/mime" share/mime/packages/geosvm.xml
    for page in TUTORIAL SCRIPT DESIGNING FORMAT PROMISES; do place 644 "$here/docs/$page.md" share/doc/geosvm/$page.md; done
    write_proved "$work/proved"
    place 644 "$work/proved" share/doc/geosvm/PROVED
}

# put SOURCE TARGET: a file in the place of the target, whole or not at all
put() {
    if cp -P --preserve=mode "$1" "$2.new$$" && mv -f -T "$2.new$$" "$2"; then return; fi
    rm -f "$2.new$$"
    stop "$2 can't be written"
}

# The list of what was installed stands among it. Each line is a name below the prefix, and nothing else is ever removed.
list=share/doc/geosvm/FILES

# remove_listed LIST [KEPT]: removes below $target what the first list has and the second hasn't
remove_listed() {
    while IFS= read -r name; do
        case $name in
        *..*) continue ;;
        bin/geos* | include/geosvm.h | include/geosvm.hpp | include/geosvm_types.hpp | lib/libgeosvm.* | lib/pkgconfig/geosvm.pc | share/*geosvm* | share/*geosdoc*) ;;
        *) continue ;;
        esac
        if [ $# = 2 ] && grep -qxF "$name" "$2"; then continue; fi
        rm -f "$target/$name"
    done <"$1"
}

# put_tree: the tree's files into their places below $target, each whole or not at all
put_tree() {
    (cd "$tree$prefix" && find . -type f -o -type l) | sed 's,^\./,,' | sort >"$work/list"
    echo "$list" >>"$work/list"
    cp "$work/list" "$tree$prefix/$list"
    if [ -f "$target/$list" ]; then cp "$target/$list" "$work/old"; else : >"$work/old"; fi
    while IFS= read -r name; do
        mkdir -p "$(dirname "$target/$name")"
        put "$tree$prefix/$name" "$target/$name"
    done <"$work/list"
    remove_listed "$work/old" "$work/list"
}

# set_prefix PREFIX: sets prefix and target, both absolute
set_prefix() {
    case $1 in
    "") stop "the prefix is empty" ;;
    /*) prefix=$1 ;;
    *) prefix=$(pwd)/$1 ;;
    esac
    prefix=${prefix%/}
    case $prefix in
    *[[:space:]]* | *[\"\'\\\$\#%]*) stop "a prefix with spaces, quotes, \\, \$, # or % isn't taken: $prefix" ;;
    esac
    case ${DESTDIR:-} in
    "" | /*) target=${DESTDIR:-}$prefix ;;
    *) target=$(pwd)/$DESTDIR$prefix ;;
    esac
}

install_below() {
    set_prefix "$1"
    write_tree
    put_tree
    echo "geosvm $version is below $target: $(wc -l <"$work/list" | tr -d ' ') files, which $target/$list lists"
}

remove_below() {
    set_prefix "$1"
    [ -f "$target/$list" ] || stop "nothing is installed below $target: there is no $target/$list"
    cp "$target/$list" "$work/old"
    remove_listed "$work/old"
    rmdir "$target/share/doc/geosvm" "$target/share/geosvm" 2>/dev/null || true
    echo "geosvm is gone from $target"
}

# The least version of the C library that has what the programs and the library ask for.
libc_needed() {
    objdump -T "$tree/usr/bin/"* "$tree/usr/lib/libgeosvm.so.$version" | sed -n 's/.*GLIBC_\([0-9.]*\).*/\1/p' | sort -uV | tail -n 1
}

make_deb() {
    into=$(cd "${1:-.}" && pwd) || exit 1
    set_prefix /usr
    write_tree
    mkdir "$tree/DEBIAN"
    cat >"$tree/DEBIAN/control" <<END
Package: geosvm
Version: $version
Architecture: amd64
Maintainer: ${MAINTAINER:-Hafidrozy maintainers <maintainers@users.noreply.hafidrozy.example>}
Installed-Size: $(du -sk "$tree/usr" | cut -f 1)
Depends: libc6 (>= $(libc_needed))
Section: libs
Priority: optional
Description: documents of blocks and heaps in a file, with exact undo
 The programs geosvm, which edits a document by commands, and geosdoc, which
 checks one and shows what is in it, and a library for C and C++.
 They are proved: /usr/share/doc/geosvm/PROVED tells what of it, by which kit.
END
    echo "activate-noawait ldconfig" >"$tree/DEBIAN/triggers"
    (cd "$tree" && find usr -type f -exec md5sum {} +) >"$tree/DEBIAN/md5sums"
    name=geosvm_${version}_amd64.deb
    dpkg-deb --build --root-owner-group "$tree" "$work/$name" >/dev/null
    put "$work/$name" "$into/$name"
    echo "$into/$name"
}

usage() {
    echo "usage: sh install.sh PREFIX | --remove PREFIX | --deb [FOLDER]" >&2
    exit 2
}

work=$(mktemp -d)
trap 'rm -rf "$work"' EXIT
tree=$work/tree
mkdir "$tree"
chmod 755 "$tree"
case $#:${1:-} in
1:--deb | 2:--deb) make_deb "${2:-}" ;;
2:--remove) remove_below "$2" ;;
*:-* | 0:*) usage ;;
1:*) install_below "$1" ;;
*) usage ;;
esac
