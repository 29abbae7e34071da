#!/usr/bin/env bash
# Runs the built program on the standard streams, files, named pipes and children, with readers, writers and devices that
# fail, and has it write journals. One line a case, and 'N passed, M failed' at the end; the status is 1 where a case
# failed.
# Usage: tests/program.sh [PROGRAM [PART..]]      (bin/socat where none is given, and all parts)
# LARGE is the number of bytes that stands for 100 MB, for a program that is slow; RELAYS how many run in a row (300).
# PEER names another socat, as in PEER=socat, on which the same parts are run afterwards.
set -u
RELAYS="${RELAYS:-300}"

. "$(dirname "${BASH_SOURCE[0]}")/common.sh"
use_program "${1:-$here/bin/socat}"
. "$here/tests/relays.sh"
python=''
if command -v python3 >/dev/null; then
    . "$here/tests/sockets/common.sh"
else
    echo "skipped what talks to peers: there is no python3"
fi

# The bytes with the values 0 to 255, some times over.
all_bytes() {
    local byte text=''
    for byte in {0..255}; do
        printf -v text '%s\\x%02x' "$text" "$byte"
    done
    printf "$text%.0s" {1..40}
}

# How many bytes a file has.
size_of() {
    local size
    size="$(wc -c <"$1")"
    echo "$((size))"
}

# passes NAME FILE: the relay of the file gives the same bytes and status 0.
passes() {
    local status
    begin "$1"
    forget_last
    timeout 60 "$program" "${relay[@]}" <"$2" >"$scratch/out" 2>"$scratch/err"
    status=$?
    keep_last "$status" "$2" "$scratch/out"
    wrong_if "$(ended_with 0 "$status")"
    [ ! -s "$scratch/err" ] || wrong "said $(cat "$scratch/err")"
    [ "$(cksum <"$scratch/out")" = "$(cksum <"$2")" ] || wrong "other bytes came out"
    finish
}

# said_write_failed: standard error was one line on a failed write, which names the side where the run still heard of
# it, and standard output where it was over.
said_write_failed() {
    said "$scratch/err" 'socat: write failed on the right' ||
        said "$scratch/err" 'socat: write failed on standard output'
}

# 100 MB of lines.
large() {
    seq 1 20000000 | head -c "${LARGE:-104857600}"
}

# after SECONDS PID: kills the process if it is still there by then.
after() {
    (
        trap - EXIT
        sleep "$1" &
        sleeper=$!
        trap 'kill "$sleeper"; exit' TERM
        wait "$sleeper"
        kill -KILL "$2"
    ) </dev/null >/dev/null 2>&1 &
    watch=$!
}

# end_watched PID WATCH: waits for the process and ends its watch. Its status is `status`.
end_watched() {
    wait "$1" 2>/dev/null
    status=$?
    kill "$2" 2>/dev/null
    wait "$2" 2>/dev/null
}

parts=("${@:2}")
[ "${#parts[@]}" -gt 0 ] || parts=(streams nonblocking journals refusals files files_daily options endings children)
for part in "${parts[@]}"; do
    . "$here/tests/program/$part.sh"
done

judge_runs
beside "${parts[@]}"
end_cases
