#!/usr/bin/env bash
# Runs tests/program.sh and tests/sockets.sh a second time, each command with a journal, and has the built auditor judge
# the journals: each is in order and holds nothing, names the bytes that passed, and each of three changes of it is found.
# Where much passes there is no journal, or less passes. One line a case, and 'N passed, M failed' at the end of each
# script; the status is 1 where a case failed.
# Usage: tests/audited.sh [PROGRAM [AUDITOR [PART..]]]      (bin/socat and bin/socat-audit where none is given; the parts
# are those of tests/program.sh)
set -u

here="$(cd "$(dirname "${BASH_SOURCE[0]}")/.." && pwd)"
program="${1:-$here/bin/socat}"
AUDITOR="$(realpath "${2:-$here/bin/socat-audit}")"
export AUDITOR
if [ ! -x "$AUDITOR" ]; then
    echo "no auditor at $AUDITOR: run make first"
    exit 1
fi
"$here/tests/program.sh" "$program" "${@:3}"
one=$?
"$here/tests/sockets.sh" "$program"
two=$?
[ "$one" -eq 0 ] && [ "$two" -eq 0 ]
