#!/bin/sh
# Installs the Debian packages that the package in python/, its tests and the test of its page need.
#
#   tools/setup.sh [--list]          with --list it only says which are missing
#
# It installs nothing that is there, and needs root or sudo to install. The status is 1 if a package is missing at the end.
. "$(dirname "$0")/common.sh"

# Packages that are missing: a module that any of the known Pythons has is there.
missing() {
    for pair in numpy:python3-numpy PIL:python3-pil tqdm:python3-tqdm jinja2:python3-jinja2 astropy:python3-astropy \
        pytest:python3-pytest distributed:python3-distributed; do
        find_python "${pair%%:*}" || printf ' %s' "${pair#*:}"
    done
    command -v chromium >/dev/null || printf ' chromium'
}

packages=$(missing)
if [ -z "$packages" ]; then
    exit 0
fi
if [ "$1" = --list ]; then
    echo "missing:$packages"
    exit 1
fi
if ! command -v apt-get >/dev/null; then
    echo "skipped: there is no apt-get for$packages"
    exit 1
fi
as_root=
if [ "$(id -u)" != 0 ]; then
    as_root="sudo -n"
fi
# The words of $packages are the packages.
if ! { $as_root apt-get update && DEBIAN_FRONTEND=noninteractive $as_root apt-get install -y --no-install-recommends $packages; } \
    >/dev/null 2>&1; then
    echo "skipped: these packages can't be installed:$packages"
    exit 1
fi
packages=$(missing)
if [ -n "$packages" ]; then
    echo "skipped: these packages are installed for another Python:$packages"
    exit 1
fi
