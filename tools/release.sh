#!/bin/sh
# Makes dist/strip122-VERSION-x86_64-linux.tar.gz of what tools/build.sh built, with its SHA-256 sum beside it, and tries the unpacked
# archive in an empty folder. From one commit the archive is the same, octet by octet.
. "$(dirname "$0")/common.sh"
need git
need tar
need gzip
need sha256sum
find_version
make_folder
cd "$top" || exit
if [ -n "$(git status --porcelain)" ]; then
    echo "$0: the clone has changes that aren't committed" >&2
    exit 1
fi
[ -f build/kit ] || {
    echo "$0: nothing is built: run tools/build.sh first" >&2
    exit 1
}
commit=$(git rev-parse HEAD)
time=$(git log -1 --format=%ct)
kit=$(cat build/kit)
name=strip122-$version-x86_64-linux
folder=$kept/$name

DESTDIR=$folder tools/install.sh / >/dev/null && rm -r "$folder/share/strip122" && cp CHANGELOG.md "$folder/" || exit
cat >"$folder/README" <<END
strip122 $version for x86-64 and Linux, of commit $commit, proved by $kit

bin/strip122 needs the C library of Debian 12 or later (glibc 2.34) and may be copied anywhere. To install all, copy bin, include, lib and
share to /usr/local. 'strip122 help' lists the commands; share/man has the manual page.
END
(cd "$folder" && find . -type f ! -name SHA256SUMS | sed 's/^\.\///' | LC_ALL=C sort | xargs sha256sum >SHA256SUMS) || exit
mkdir -p dist || exit
tar --format=ustar --sort=name --mtime="@$time" --owner=0 --group=0 --numeric-owner --mode=u+rw,go+r,go-w -C "$kept" -cf - "$name" |
    gzip -9n >"dist/$name.tar.gz" && (cd dist && sha256sum "$name.tar.gz" >"$name.tar.gz.sha256") || exit

# The unpacked archive, in an empty folder and without the environment.
mkdir "$kept/empty" && tar -xzf "dist/$name.tar.gz" -C "$kept/empty" && cd "$kept/empty/$name" || exit
sha256sum --quiet -c SHA256SUMS || exit
wrong() {
    echo "$0: the unpacked archive is wrong: $1" >&2
    exit 1
}
run() {
    env -i ./bin/strip122 "$@"
}
case $(run version) in
    "strip122 $version,"*) ;;
    *) wrong "its version is '$(run version)'" ;;
esac
run make width=64 rows=128 seed=7 >raster && run encode width=64 rows=128 segment=16 <raster >packets && run decode <packets >decoded &&
    cmp raster decoded || wrong "a raster isn't decoded as it was encoded"
if command -v cc >/dev/null; then
    cat >use.c <<END
#include <strip122.h>
int main(void) {
    static unsigned char raster[289], room[1000];
    strip122_setting setting = strip122_usual(17, 17);
    strip122_encoded encoded = {.size = sizeof encoded};
    return strip122_encode(&setting, raster, sizeof raster, room, sizeof room, &encoded) != STRIP122_DONE || encoded.octets != 52;
}
END
    cc -Iinclude use.c -Llib -lstrip122 -Wl,-rpath,"$PWD/lib" -o use_shared && ./use_shared || wrong "a program with the shared library"
    cc -Iinclude use.c lib/libstrip122.a -o use_static && ./use_static || wrong "a program with the static library"
    CC=cc STRIP122_C=$PWD/lib/libstrip122.a "$top/tools/checks/try_c_tests.sh" || wrong "the tests of the library for C"
fi
echo "dist/$name.tar.gz: $(wc -c <"$top/dist/$name.tar.gz") octets, of commit $commit, proved by $kit"
cat "$top/dist/$name.tar.gz.sha256"
