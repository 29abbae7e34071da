#!/usr/bin/env bash
# Runs the built auditor on the journals of tests/data/journals.txt, which were judged by other means, on those of
# tests/data/journals_by_hand.txt, on two of 2,000 acts, and on files that are missing, empty, cut or too long. One line
# a case that fails, and 'N passed, M failed' at the end; the status is 1 where a case failed.
# Usage: tests/audit.sh [PROGRAM]      (bin/socat-audit where none is given)
set -u

. "$(dirname "${BASH_SOURCE[0]}")/common.sh"
use_program "${1:-$here/bin/socat-audit}"
quiet=yes

# expect NAME LINE STATUS FILE WORDS..: the auditor says this line, and ends with this status.
expect() {
    local said status
    begin "$1"
    said="$(timeout 120 "$program" "${@:4}")"
    status=$?
    [ "$said" = "$2" ] && [ "$status" -eq "$3" ] || wrong "'$said' and status $status, not '$2' and status $3"
    finish
}

# The status that goes with a line.
status_of() {
    case "$1" in
        yes:*) echo 0 ;;
        *) echo 1 ;;
    esac
}

# run_cases FILE: each case of the file in tests/data: a line 'words', a line 'verdict', a line 'lines' with their
# number, and the journal's text, without its last newline where 'unfinished' follows the number.
run_cases() {
    local file="$1" number=0 key rest words='' verdict='' count unfinished i line
    while IFS=' ' read -r key rest; do
        case "$key" in
            words) words="$rest" ;;
            verdict) verdict="$rest" ;;
            lines)
                number=$((number + 1))
                count="${rest%% *}"
                unfinished=''
                [ "$rest" = "$count unfinished" ] && unfinished=yes
                for ((i = 1; i <= count; i++)); do
                    IFS= read -r line
                    if [ "$i" -eq "$count" ] && [ -n "$unfinished" ]; then
                        printf '%s' "$line"
                    else
                        printf '%s\n' "$line"
                    fi
                done >"$scratch/journal"
                # The words have no spaces or quotes of their own; a * in one stands for itself.
                set -f
                # shellcheck disable=SC2086
                expect "$file, case $number ($words)" "$verdict" "$(status_of "$verdict")" "$scratch/journal" $words
                set +f
                ;;
        esac
    done <"$here/tests/data/$file"
    echo "$number journals of $file"
    all_tried "$file" "$number" "$(grep -c '^verdict ' "$here/tests/data/$file")"
}

# acts_of_sessions SESSIONS TURNS: the journal of a run in which a door of `fork` serves so many sessions. So many turns
# name one session each, in order, which passes one byte on; then one session passes two bytes on, one by one, and all of
# them end.
acts_of_sessions() {
    local sessions=() s moment named
    for ((s = 0; s < $1; s++)); do
        sessions+=("$s")
    done
    echo 'listening 0LBd'
    for s in "${sessions[@]}"; do
        printf 'accepted %sLI- 4:0a000001:%s\nopened %sRO-\n' "$s" $((4000 + s)) "$s"
    done
    echo 'closed 0LBd served'
    printf 'readnotyet %sLI-\n' "${sessions[@]}"
    for ((moment = 0; moment < $2; moment++)); do
        s=$((moment % $1))
        printf 'turn - %s %sLI-r 0\nread %sLI- x61\nwrote %sRO- x61\nreadnotyet %sLI-\n' "$moment" "$s" "$s" "$s" "$s"
    done
    named="$(printf ',%sLI-r' "${sessions[@]}")"
    printf 'turn - %s %s 0\nread 0LI- x6262\nwrote 0RO- x62\nwrote 0RO- x62\n' "$2" "${named#,}"
    for s in "${sessions[@]}"; do
        printf 'end %sLI-\nshut %sRO- close\nclosed %sLI- finished\nclosed %sRO- finished\n' "$s" "$s" "$s" "$s"
    done
}

# The journal of a run of 2,000 acts between two places of datagrams: 999 packets of 512 bytes are passed on.
two_thousand_packets() {
    local piece i
    piece="$(printf '5a%.0s' {1..512})"
    printf 'opened 0LI-\nopened 0RO-\n'
    for ((i = 0; i < 999; i++)); do
        printf 'read 0LI- x%s\nwrote 0RO- x%s\n' "$piece" "$piece"
    done
}

# short_acts: a journal of one plain session near the limit of 16 MiB, in which single bytes are passed on.
short_acts() {
    printf 'opened 0LI-\nopened 0RO-\n'
    yes $'read 0LI- x61\nwrote 0RO- x61' | head -n 1156000
}

# run_long_journal NAME SECONDS LINE FILE WORDS..: the auditor says this line of the journal within these seconds, or
# within PATIENCE times as many on a slow machine.
run_long_journal() {
    local said began took
    begin "$1"
    began="$(date +%s%N)"
    said="$(timeout $(($2 * ${PATIENCE:-1})) "$program" "${@:4}")"
    took=$((($(date +%s%N) - began) / 1000000))
    [ "$said" = "$3" ] || wrong "'$said' after $took ms"
    [ -n "$problem" ] || echo "$1 in $took ms"
    finish
}

run_cases journals.txt
run_cases journals_by_hand.txt

acts_of_sessions 10 481 >"$scratch/many"
run_long_journal "2000 acts" 5 'yes: 2000 acts, 0 held' "$scratch/many" \
    -u TCP-LISTEN:80,fork,max-children=10,stop-after=10 CREATE:f
two_thousand_packets >"$scratch/packets"
run_long_journal "2000 acts with packets" 5 'yes: 2000 acts, 2 held' "$scratch/packets" \
    -u UDP-RECV:9 UDP-SENDTO:127.0.0.1:9
acts_of_sessions 200 4649 >"$scratch/many"
run_long_journal "20002 acts of 200 sessions" 60 'yes: 20002 acts, 0 held' "$scratch/many" \
    -u TCP-LISTEN:80,fork,max-children=200,stop-after=200 CREATE:f
short_acts >"$scratch/short"
run_long_journal "1156002 short acts" 10 'yes: 1156002 acts, 2 held' "$scratch/short" -u STDIN STDOUT

: >"$scratch/empty"
printf 'opened 0LI-\nopened 0RO' >"$scratch/cut"
head -c 16777217 /dev/zero >"$scratch/long"
head -c 16777216 /dev/zero >"$scratch/longest"
relay=(-u STDIN STDOUT)
expect "an empty file" 'yes: 0 acts, 0 held' 0 "$scratch/empty" "${relay[@]}"
expect "a cut line" 'no: line 2' 1 "$scratch/cut" "${relay[@]}"
expect "one byte too many" 'no: too long' 1 "$scratch/long" "${relay[@]}"
expect "as long as may be" 'no: line 1' 1 "$scratch/longest" "${relay[@]}"
expect "too long comes before the words" 'no: too long' 1 "$scratch/long" nothing
expect "words come before the lines" 'no: words' 1 "$scratch/cut" nothing
expect "the flag that saves a journal" 'no: words' 1 "$scratch/empty" --journal=j "${relay[@]}"
expect "a file that isn't there" '' 3 "$scratch/missing" "${relay[@]}"
expect "a folder" '' 3 "$scratch" "${relay[@]}"

begin "no arguments"
said="$("$program" 2>"$scratch/usage")"
wrong_if "$(ended_with 3 $?)"
[ -z "$said" ] && [[ "$(<"$scratch/usage")" == usage:* ]] || wrong "said $said$(<"$scratch/usage")"
finish
begin "a full device"
"$program" "$scratch/empty" "${relay[@]}" >/dev/full
wrong_if "$(ended_with 3 $?)"
finish

end_cases
