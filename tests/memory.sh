#!/usr/bin/env bash
# Refused memory: runs the built program with the C library's allocator refusing one request, for each of the requests
# in turn: one way, a dump, 100,000 bytes over both rings, three TCP peers with `fork`; and one way and a dump with all
# behind it refused too; each also with a journal, which the built auditor judges. Each run either is as ever, or ends for
# want of memory, which it says, with everything closed and no wrong byte passed. Where the program run_trials is named
# too, some of its rows are tried likewise.
# Usage: tests/memory.sh [PROGRAM [AUDITOR [WORKED]]]     (bin/socat and bin/socat-audit where none is given, and
# crates/run_trials/out/run_trials where it was built)
# A line for each row, and 'N passed, M failed' at the end; the status is 1 where a run was otherwise.
set -u

here="$(cd "$(dirname "${BASH_SOURCE[0]}")/.." && pwd)"
program="$(realpath "${1:-$here/bin/socat}")"
auditor="$(realpath "${2:-$here/bin/socat-audit}")"
worked="$(realpath -m "${3:-$here/crates/run_trials/out/run_trials}")"
for one in "$program" "$auditor"; do
    if [ ! -x "$one" ]; then
        echo "no program at $one: run make first"
        exit 1
    fi
done
compiler="$(command -v cc || command -v gcc || command -v clang || true)"
if [ -z "$compiler" ] || ! command -v python3 >/dev/null; then
    echo "skipped all: there is no C compiler, or no python3"
    echo "0 passed, 0 failed"
    exit 0
fi
scratch="$(mktemp -d)" || exit 1
trap 'rm -rf "$scratch"' EXIT
"$compiler" -O2 -shared -fPIC -o "$scratch/refuse.so" "$here/tests/memory/refuse.c" || exit 1
[ -x "$worked" ] || worked=''
[ -n "$worked" ] || echo "skipped the worked rows: run_trials isn't built"
python3 -B "$here/tests/memory/run.py" "$scratch/refuse.so" "$program" "$auditor" \
    ${worked:+"$worked" "$here/crates/run_trials/data/scripted"}
