#!/bin/sh
# Runs the commands of the README, the tour, the recipes, docs/ground.md and python/README.md, and compares what they print with these documents.
#
#   tools/checks/try_docs.sh [DOCUMENT ..]
#
# The program is that of this repository, or the one that STRIP122 names. docs/recipes.md and docs/ground.md name the packages that
# their commands need.
. "$(dirname "$0")/../common.sh"
need bash
need_package
find_program
make_folder
printf '#!/bin/sh\nexec "%s" "$@"\n' "$(command -v "$python")" >"$kept/python3" && chmod +x "$kept/python3" || exit
PATH=$kept:$PATH "$python" "$top/tools/checks/try_docs.py" "$program" "$@"
