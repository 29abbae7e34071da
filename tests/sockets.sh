#!/usr/bin/env bash
# Runs the built program on the sockets of this machine's loopback: against itself, against small Python peers and,
# where it is installed, against another socat; each as client and as server. One line a case, and 'N passed, M failed'
# at the end; the status is 1 where a case failed.
# Usage: tests/sockets.sh [PROGRAM [PART..]]      (bin/socat where none is given, and all parts)
# MANY is the number of short relays in a row (200). On a slow machine PATIENCE is how many times longer all may take.
# PEER names another socat, as in PEER=socat, on which the same parts are run afterwards.
set -u

. "$(dirname "${BASH_SOURCE[0]}")/common.sh"
use_program "${1:-$here/bin/socat}"
if ! command -v python3 >/dev/null; then
    echo "skipped all: there is no python3"
    echo "0 passed, 0 failed"
    exit 0
fi
. "$here/tests/relays.sh"
. "$here/tests/sockets/common.sh"

parts=("${@:2}")
[ "${#parts[@]}" -gt 0 ] || parts=(pairs streams ends opening filters udp unix proxies sessions scarce senders names many)
for part in "${parts[@]}"; do
    . "$here/tests/sockets/$part.sh"
done

judge_runs
beside "${parts[@]}"
end_cases
