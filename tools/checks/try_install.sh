#!/bin/sh
# Installs what is built below a folder that has files of its own, runs it, and uninstalls it: what was there is left, and nothing else.
. "$(dirname "$0")/../common.sh"
find_version
if [ ! -x "$top/crates/strip122/out/strip122" ] || [ ! -f "$top/build/libstrip122.so" ]; then
    echo "skipped: tools/build.sh has built nothing"
    exit 0
fi
make_folder
prefix="$kept/a prefix"
wrong() {
    echo "$0: $1" >&2
    exit 1
}

mkdir -p "$prefix/lib" "$prefix/share/man" && echo other >"$prefix/lib/other" || exit
before=$(cd "$prefix" && find . | LC_ALL=C sort)
"$top/tools/install.sh" "$prefix" >/dev/null && "$top/tools/install.sh" "$prefix" >/dev/null || wrong "it can't be installed, or not twice"
case $("$prefix/bin/strip122" version) in
    "strip122 $version, "*) ;;
    *) wrong "the program that is installed isn't of version $version" ;;
esac
for place in include/strip122.h lib/libstrip122.a lib/libstrip122.so lib/pkgconfig/strip122.pc share/man/man1/strip122.1.gz \
    share/bash-completion/completions/strip122; do
    [ -s "$prefix/$place" ] || wrong "$place isn't installed"
done
grep -qx "Version: $version" "$prefix/lib/pkgconfig/strip122.pc" || wrong "strip122.pc has another version"
zcat "$prefix/share/man/man1/strip122.1.gz" | grep -q "strip122 $version" || wrong "the manual page has another version"
"$top/tools/install.sh" --uninstall "$prefix" >/dev/null || wrong "it can't be removed"
[ "$(cd "$prefix" && find . | LC_ALL=C sort)" = "$before" ] || wrong "another file is left or missing after it was removed"
! "$top/tools/install.sh" --uninstall "$prefix" 2>/dev/null || wrong "it is removed twice"
! "$top/tools/install.sh" --what 2>/dev/null || wrong "a wrong word is taken"
! "$top/tools/install.sh" "$prefix/lib/other" 2>/dev/null || wrong "it is installed below a file"
echo "installed, run and removed: all as it should be"
