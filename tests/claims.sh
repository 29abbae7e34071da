#!/usr/bin/env bash
# Finds each clause, function and definition that README.md and docs/PROOFS.md name in the crate named beside it.
# 'N passed, M failed' at the end; the status is 1 where something is missing.
# Usage: tests/claims.sh
exec python3 -B "$(dirname "${BASH_SOURCE[0]}")/docs/claims.py"
