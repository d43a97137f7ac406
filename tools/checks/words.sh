#!/bin/sh
# Counts the words and sentences of the documents (tools/checks/words.py).
exec python3 "$(dirname "$0")/words.py" "$@"
