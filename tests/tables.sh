#!/usr/bin/env bash
# Compares the manual pages and the bash completion with the program's tables of flags, kinds, options and refusals, so that
# none is forgotten and none stands there that is gone; where man is installed it also has to find nothing amiss in the pages,
# and lexgrog each page's name.
# 'N passed, M failed' at the end; the status is 1 where something differs.
# Usage: tests/tables.sh
set -u
here="$(cd "$(dirname "${BASH_SOURCE[0]}")/.." && pwd)"
status=0

if command -v man >/dev/null && command -v groff >/dev/null; then
    for page in "$here"/man/*.1; do
        warnings="$(LC_ALL=C MANWIDTH=100 man -l --warnings "$page" 2>&1 >/dev/null)"
        if [ -n "$warnings" ]; then
            echo "FAILED  ${page#"$here"/}: $warnings"
            status=1
        fi
        name="$(basename "$page" .1)"
        if command -v lexgrog >/dev/null && ! lexgrog "$page" | grep -q "\"$name - "; then
            echo "FAILED  ${page#"$here"/}: lexgrog doesn't find $name"
            status=1
        fi
    done
else
    echo "skipped the look of the pages: there is no man or no groff"
fi
python3 -B "$here/tests/docs/tables.py" || status=1
exit "$status"
