#!/bin/sh
# Makes docs/reference.md, the manual page share/strip122.1 and the completion share/strip122.bash from what `strip122 help` prints, which is
# proved to be the program's tables, and from share/advice.md. With --check it compares them, and the version in each place that has one.
#
#   tools/reference.sh [--check]
. "$(dirname "$0")/common.sh"
need python3
find_version
find_program

# PLACE PATTERN: the place has the version, or the number that is made of it.
has_version() {
    grep -qF -- "$2" "$top/$1" || {
        echo "$0: $1 doesn't have '$2', and VERSION is $version" >&2
        exit 1
    }
}

if [ "$1" = --check ]; then
    number=$(echo "$version" | awk -F . '{ print 10000 * $1 + 100 * $2 + $3 }')
    has_version crates/command_words/src/answers.rt "\"strip122 $version, "
    has_version crates/command_words/specs/Answers.antt "\"strip122 $version, "
    has_version c/strip122.h "#define STRIP122_VERSION ${number}u"
    has_version CHANGELOG.md "## $version"
fi
case $("$program" version) in
    "strip122 $version, "*) ;;
    *)
        echo "$0: $program isn't of version $version" >&2
        exit 1
        ;;
esac
python3 -B "$top/tools/reference.py" "$@" "$program"
