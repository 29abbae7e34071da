#!/usr/bin/env bash
# Runs the built program on words that it refuses, and on those that ask for usage or version: each has its one
# text on standard error, its status, nothing on standard output, and opens and creates nothing. Only a journal that the
# first word asks for is made, and stays empty.
# tests/data/refusals.txt has most of them; it was made by an independent model. One line a group, and
# 'N passed, M failed' at the end; the status is 1 where a case failed.
# Usage: tests/words.sh [PROGRAM]      (bin/socat where none is given)
# On a slow machine PATIENCE is how many times longer each run may take.
set -u

. "$(dirname "${BASH_SOURCE[0]}")/common.sh"
use_program "${1:-$here/bin/socat}"
quiet=yes
mkdir "$scratch/empty"
cd "$scratch/empty" || exit 1

# says STATUS TEXT WORD..: the words end with the status, say the text and do nothing else.
says() {
    local wanted="$1" text="$2" status left journal=''
    shift 2
    begin_words "$@"
    case "${1:-}" in
        --journal=/*) ;;
        --journal=?*) journal="${1#--journal=}" ;;
    esac
    printf 'abc' >"$scratch/offered"
    {
        timeout "$((20 * ${PATIENCE:-1}))" "$program" "$@" >"$scratch/out" 2>"$scratch/err"
        status=$?
        left="$(cat)"
    } <"$scratch/offered"
    printf '%s' "$text" >"$scratch/wanted"
    wrong_if "$(ended_with "$wanted" "$status")"
    cmp -s "$scratch/err" "$scratch/wanted" || wrong "said $(head -c 200 "$scratch/err")"
    [ ! -s "$scratch/out" ] || wrong 'something was written'
    [ "$left" = abc ] || wrong 'the input was read'
    [ "$(ls -A .)" = "$journal" ] || wrong "something was made: $(ls -A . | head -n 1)"
    [ -z "$journal" ] || [ ! -s "$journal" ] || wrong 'something was written to the journal'
    rm -rf "$scratch/empty"/*
    finish
}

# refused LINE WORD..: status 1 and this line.
refused() {
    local line="$1"
    shift
    says 1 "$line"$'\n' "$@"
}

# --- the table of an independent model

cases() {
    local line status text words
    while next_case; do
        IFS= read -r line
        status="${line#status }"
        IFS= read -r text
        says "$status" "$text"$'\n' "${words[@]+"${words[@]}"}"
    done
}
table="$here/tests/data/refusals.txt"
cases <"$table"
# Each case was tried, and none is missing.
all_tried 'the table' "$((passed + failed))" 336
sum_up 'the table'

# --- rows of one kind each

refused 'socat: E07 word 1: empty option at 7' 'OPEN:x,,creat' STDIO
refused 'socat: E13 word 2 half 1: address kind left out' STDIO PTY
refused 'socat: E12 word 1 half 1: unknown address kind' FOO STDIO
refused 'socat: E14 word 2 half 1: parameters want 2 have 1' STDIO TCP:h
refused 'socat: E01 word 1: unclosed at 0' '(a' STDIO
refused 'socat: E02 word 1: lone backslash at 1' 'a\' STDIO
refused 'socat: E06 word 1: too many !! at 4' 'a!!b!!c' STDIO
refused 'socat: E21: addresses want 2 have 1' STDIO
refused 'socat: E22: no direction' STDOUT STDERR

refused 'socat: E20 word 1: bad flag value' -b0 - -
refused 'socat: E19 word 1: flag without value' -b
refused 'socat: E20 word 1: bad flag value' -t 4000001 - -
refused 'socat: E18 word 1: unknown flag' -z - -
refused 'socat: E05 word 1: empty address' '' -
refused 'socat: E15 word 1 half 1: bad parameter 1' OPEN: -
refused 'socat: E15 word 1 half 1: bad parameter 2' TCP:h:65536 -
refused 'socat: E10 word 1 half 1: option 1 of another group' -,fork -
refused 'socat: E17 word 2 half 1: fork not here' -g -,fork -
refused 'socat: E11 word 1 half 1: bad value of option 1' -,escape=256 -
refused 'socat: E09 word 1 half 1: left-out option 1' -,pty -
refused 'socat: E16 word 2 half 1: wrong use' -u STDOUT -
refused 'socat: E16 word 2 half 1: wrong use' -U STDIN STDOUT
refused 'socat: E21: addresses want 2 have 3' - - -
refused 'socat: E21: addresses want 2 have 0'

# A written journal is asked for by the first word alone; the others are numbered from behind it.
refused 'socat: E18 word 2: unknown flag' -u --journal=j STDIN STDOUT
refused 'socat: E18 word 1: unknown flag' --journal=/dev/null --journal=j - -
refused 'socat: E05 word 2: empty address' --journal=/dev/null - ''

long() {
    printf "%0$1d" 0 | tr 0 "$2"
}
refused 'socat: E03 word 1: address too long' "$(long 65537 a)" -
refused 'socat: E01 word 1: unclosed at 0' "$(long 65536 '(')" -

# Arguments are bytes, whatever they spell.
refused 'socat: E12 word 1 half 1: unknown address kind' $'\xff\xfe' -
refused 'socat: E18 word 1: unknown flag' $'-\xff' - -
# Offsets count them as they came. A replacement character in place of a byte would count for three.
refused 'socat: E07 word 1: empty option at 3' $'\xff\xfe,,cr' -
refused 'socat: E06 word 2: too many !! at 4' - $'a!!\xc3!!\xff'
refused 'socat: E01 word 1: unclosed at 2' $'\xe2\x82"' -

# --- the generated run

# generated NUMBER: its summary, by the formula alone.
generated() {
    python3 -c '
import sys
number = int(sys.argv[1])
state, total = number % 2**31, 0
for _ in range(50 * 65536):
    state = (1103515245 * state + 12345) % 2**31
    total += state // 65536 % 256
print(f"load {number}: 50 sessions, {50 * 65536} bytes, sum {total}")
' "$1"
}
for number in 7 0 9223372036854775808 18446744073709551615; do
    says 0 "$(generated "$number")"$'\n' --load "$number"
done
says 0 "$(generated 7)"$'\n' --load 07 and more words
says 0 "$(generated 31)"$'\n' --journal=j --load 0x1F
refused 'socat: E20 word 1: bad flag value' --load 18446744073709551616
refused 'socat: E19 word 1: flag without value' --load

# A name that isn't UTF-8 is in order, and fails at its opening.
refused 'socat: open failed on the left after 1 attempts' -u $'OPEN:\xff\xfe' STDOUT

# --- usage and version

usage='usage: socat [options] <address> <address>
options: -b<size> -t<time> -T<time> -u -U -s -v -x -g -d -h -V
'
says 0 "$usage" -h
says 0 "$usage" '-?' and more words
says 0 "$usage" -u -b4 -h
says 0 "$usage" --journal=/dev/null -h
says 0 'socat relay, profile of 1.7
' -V

end_cases
