#!/bin/sh
# Installs what tools/build.sh built: tools/install.sh [PREFIX], or removes exactly that: tools/install.sh --uninstall [PREFIX]. PREFIX is
# /usr/local by default. If DESTDIR is set, the files are put below it. PREFIX/share/strip122/installed lists all that was made.
. "$(dirname "$0")/common.sh"

usage() {
    echo "usage: $0 [--uninstall] [PREFIX]" >&2
    exit 1
}

uninstall=
if [ "$1" = --uninstall ]; then
    uninstall=1
    shift
fi
[ $# -le 1 ] || usage
case ${1:-/usr/local} in
    -*) usage ;;
    /*) prefix=${1:-/usr/local} ;;
    *) prefix=$PWD/$1 ;;
esac
root=$DESTDIR${prefix%/}
installed=share/strip122/installed

# Removes the files of the list, and then the folders that the installation made, if nothing else is in them.
remove() {
    while read -r kind place; do
        [ "$kind" = folder ] || rm -f "$root/$place" || exit
    done <"$root/$installed"
    folders=$(sed -n 's/^folder //p' "$root/$installed" | sort -r)
    rm -f "$root/$installed"
    for folder in $folders; do
        rmdir "$root/$folder" 2>/dev/null
    done
}

if [ -n "$uninstall" ]; then
    if [ ! -f "$root/$installed" ]; then
        echo "$0: strip122 isn't installed below $root" >&2
        exit 1
    fi
    remove
    echo "removed strip122 from $root"
    exit 0
fi

find_version
interface=${version%.*}

# Each file that is installed: how, from where, and its place below the prefix.
files() {
    cat <<END
755 crates/strip122/out/strip122 bin/strip122
644 c/strip122.h include/strip122.h
644 build/libstrip122.a lib/libstrip122.a
755 build/libstrip122.so lib/libstrip122.so.$version
link libstrip122.so.$version lib/libstrip122.so.$interface
link libstrip122.so.$interface lib/libstrip122.so
pc share/strip122.pc.in lib/pkgconfig/strip122.pc
gz share/strip122.1 share/man/man1/strip122.1.gz
644 share/strip122.bash share/bash-completion/completions/strip122
END
}

# Makes a folder below the prefix, with those above it, and lists those that are new.
make_below() {
    [ -d "$root/$1" ] && return
    case $1 in
        */*) make_below "${1%/*}" ;;
    esac
    mkdir -p "$root/$1" && echo "folder $1" >>"$root/$installed"
}

put() {
    case $1 in
        link) ln -sf "$2" "$root/$3" ;;
        pc) sed "s/@VERSION@/$version/" "$2" >"$root/$3" && chmod 644 "$root/$3" ;;
        gz) gzip -9nc "$2" >"$root/$3" && chmod 644 "$root/$3" ;;
        *) install -m "$1" "$2" "$root/$3" ;;
    esac
}

cd "$top" || exit
files | while read -r how source place; do
    if [ "$how" != link ] && [ ! -f "$source" ]; then
        echo "$0: $source isn't there: run tools/build.sh first" >&2
        exit 1
    fi
done || exit
if [ -f "$root/$installed" ]; then
    remove
fi
before=
for folder in share share/strip122; do
    [ -d "$root/$folder" ] || before="$before $folder"
done
mkdir -p "$root/share/strip122" && : >"$root/$installed" || exit
for folder in $before; do
    echo "folder $folder" >>"$root/$installed"
done
files | while read -r how source place; do
    make_below "${place%/*}" && put "$how" "$source" "$place" && echo "file $place" >>"$root/$installed" || {
        echo "$0: $root/$place can't be written" >&2
        exit 1
    }
done || exit
if [ -z "$DESTDIR" ] && [ "$(id -u)" = 0 ]; then
    ldconfig 2>/dev/null
fi
echo "installed strip122 $version below $root"
