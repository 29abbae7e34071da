#!/usr/bin/env bash
# Finds each definition of the crates' specs that has no comment in front of it, and each name of docs/DEFINITIONS.md
# that is none. 'N passed, M failed' at the end; the status is 1 where something is missing.
# With `list` it prints the list of all definitions, or of those of some crates, with their comments.
# Usage: tests/definitions.sh [list [CRATE..]]
exec python3 -B "$(dirname "${BASH_SOURCE[0]}")/docs/definitions.py" "$@"
