#!/usr/bin/env bash
# Compares the tables of docs/ARCHITECTURE.md with crates.txt, and finds the files that the page names.
# 'N passed, M failed' at the end; the status is 1 where something differs.
# Usage: tests/architecture.sh
exec python3 -B "$(dirname "${BASH_SOURCE[0]}")/docs/architecture.py"
