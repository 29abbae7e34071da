#!/usr/bin/env bash
# Runs the built explainer: on the texts of tests/data/explanations.txt, which were written by hand; on every kind, and on
# every option at each kind that takes it; on words that are refused, whose first line has to be that of the relay for the
# same words; on hostile words, of which nothing but printable bytes may come out; and where nothing can be written. One
# line a group, and 'N passed, M failed' at the end; the status is 1 where a case failed.
# Usage: tests/explain.sh [EXPLAINER [RELAY]]      (bin/socat-explain and bin/socat where none is given)
set -u

. "$(dirname "${BASH_SOURCE[0]}")/common.sh"
use_program "${1:-$here/bin/socat-explain}"
quiet=yes
find_program "${2:-$here/bin/socat}"
relay="$found"
mkdir "$scratch/empty"
cd "$scratch/empty" || exit 1

shopt -s nullglob dotglob

# explain WORD..: runs the program; `status` is what it ended with, and `text` its report, with a point behind it.
explain() {
    timeout 60 "$program" "$@" >"$scratch/report" 2>"$scratch/err" </dev/null
    status=$?
    text="$(cat "$scratch/report" && printf .)"
}

# wants STATUS TEXT..: the last run ended so, made nothing and gave a report, in which each of these texts stands.
wants() {
    local sought made=(*)
    case "$status" in
        0 | 1) ;;
        *) wrong "status $status" ;;
    esac
    [ ! -s "$scratch/err" ] || wrong "said $(head -c 100 "$scratch/err")"
    [ "$(LC_ALL=C tr -d ' -~\n' <"$scratch/report" | wc -c)" -eq 0 ] || wrong 'a byte that is neither printable nor a newline'
    [[ "$text" == *$'\n.' ]] || wrong 'no newline at the end'
    [ "${#made[@]}" -eq 0 ] || wrong "something was made: ${made[0]}"
    [ "$status" -eq "$1" ] || wrong "status $status: ${text%%$'\n'*}"
    for sought in "${@:2}"; do
        [[ "$text" == *"$sought"* ]] || wrong "nothing is said of $sought"
    done
}

# --- the texts that were written by hand

texts() {
    local line wanted words tried=0
    while next_case; do
        IFS= read -r line
        wanted="${line#status }"
        : >"$scratch/text"
        while IFS= read -r line; do
            case "$line" in
                '| '*) printf '%s\n' "${line#| }" ;;
                '|') echo ;;
                *) break ;;
            esac
        done >>"$scratch/text"
        begin_words "${words[@]}"
        explain "${words[@]}"
        wants "$wanted"
        wrong_if "$(diff "$scratch/text" "$scratch/report" | head -n 5)"
        finish
        tried=$((tried + 1))
    done <"$1"
    all_tried "$1" "$tried" "$(grep -c '^case ' "$1")"
}
texts "$here/tests/data/explanations.txt"
sum_up texts

# --- every kind and every option of the tables, which tests/tables.sh compares with the completion

. "$here/completion/socat" 2>/dev/null

# parameters KIND: what stands behind the keyword.
parameters() {
    case "$1" in
        STDIO | STDIN | STDOUT | STDERR) ;;
        PIPE | CREATE | OPEN | GOPEN | UNIX-*) echo ':./name' ;;
        EXEC | SYSTEM) echo ':true' ;;
        SOCKS4 | SOCKS4A | PROXY) echo ':server:host:80' ;;
        *-LISTEN | *-L | *-RECVFROM | *-RECV) echo ':80' ;;
        *6 | *6-*) echo ':[::1]:80' ;;
        *) echo ':127.0.0.1:80' ;;
    esac
}

# value OPTION: an option with a value that it takes.
value() {
    case "$1" in
        readbytes= | escape= | retry= | sourceport= | socksport= | proxyport=) echo "${1}7" ;;
        max-children= | stop-after=) echo "fork,${1}7" ;;
        interval=) echo "${1}2.5" ;;
        range=) echo "${1}10.0.0.0/8" ;;
        bind=) echo "${1}10.0.0.1" ;;
        socksuser=) echo "${1}me" ;;
        *) echo "$1" ;;
    esac
}

# told OPTION: a text of the report on the option. How an end is passed on is told as it comes about, and what means
# nothing at a kind or alone isn't told.
told() {
    case "$1" in
        shut-*) echo "the other's end: " ;;
        null-eof | reuseaddr | pipes | interval= | unlink-*) ;;
        *) echo "${1%=}" ;;
    esac
}

# in_order ADDRESS: explains it in the first use that takes it, on the left where it may have fork.
in_order() {
    explain "$1" STDIO
    [ "$status" -eq 0 ] || explain -u "$1" STDOUT
    [ "$status" -eq 0 ] || explain -U "$1" STDIN
}

# says_of ADDRESS TEXT..: the address makes a command, and each of these texts stands in its report.
says_of() {
    begin_words "$1"
    in_order "$1"
    wants 0 "${@:2}"
    finish
}

for kind in "${!_socat_groups[@]}"; do
    address="$kind$(parameters "$kind")"
    says_of "$address" 'first address' 'second address' "the other's end: "
    # The families of addresses take the same options.
    [[ "$kind" != @(TCP|UDP)[46]* ]] || continue
    for group in ${_socat_groups[$kind]}; do
        for option in ${_socat_options[$group]}; do
            says_of "$address,$(value "$option")" "$(told "$option")"
        done
    done
done
sum_up 'kinds and options'

# An option that is on says something else than one that is off.
differs() {
    local off="$1" on="$2"
    begin_words "$on"
    in_order "$off"
    mv "$scratch/report" "$scratch/off"
    in_order "$on"
    wants 0
    ! cmp -s "$scratch/report" "$scratch/off" || wrong 'the same is said without the option'
    finish
}
for pair in STDIO,cr STDIO,crnl STDIO,ignoreeof STDIO,readbytes=1 STDIO,escape=1 OPEN:x,shut-none UDP:h:1,null-eof \
    UDP:h:1,shut-null TCP:h:1,shut-close TCP:h:1,shut-none OPEN:x,creat OPEN:x,excl OPEN:x,append OPEN:x,trunc \
    OPEN:x,rdonly OPEN:x,wronly OPEN:x,unlink-early OPEN:x,unlink-close UNIX-LISTEN:x,unlink-close=0 TCP:h:1,nodelay \
    TCP-LISTEN:1,bind=1.2.3.4 TCP:h:1,retry=1 TCP:h:1,forever TCP-LISTEN:1,fork TCP-LISTEN:1,range=1.2.3.4/32 \
    TCP-LISTEN:1,sourceport=1 TCP-LISTEN:1,lowport SOCKS4:s:h:1,socksport=1 SOCKS4:s:h:1,socksuser=u \
    PROXY:s:h:1,proxyport=1; do
    differs "${pair%%,*}" "$pair"
done
differs TCP-LISTEN:1,fork TCP-LISTEN:1,fork,max-children=2
differs TCP-LISTEN:1,fork TCP-LISTEN:1,fork,stop-after=2
differs TCP:h:1,forever TCP:h:1,forever,interval=2
sum_up 'options that are on'

# --- refusals: the line of the relay, and the word with carets under it

# refused WORD..: both programs refuse the words with the same line.
refused() {
    local line
    begin_words "$@"
    explain "$@"
    wants 1
    line="$(timeout 20 "$relay" "$@" 2>&1 >/dev/null </dev/null)"
    rm -f ./*
    [ "${text%%$'\n'*}" = "$line" ] || wrong "says ${text%%$'\n'*}, and the relay $line"
    case "$line" in
        *' word '*) grep -q '^ *^^*$' "$scratch/report" || wrong 'no word is underlined' ;;
    esac
    finish
}

refusals() {
    local line words
    while next_case; do
        IFS= read -r line
        IFS= read -r line
        case "$line" in
            'socat: E'*) refused "${words[@]+"${words[@]}"}" ;;
        esac
    done <"$here/tests/data/refusals.txt"
}
refusals
refused
refused --journal=x
refused --journal=x -u - ''
refused -u --journal=x - -

# --- hostile words

long() {
    printf "%0$1d" 0 | tr 0 "$2"
}
refused ''
refused '' ''
refused $'\xff\xfe' -
refused - $'\x1b[31mred\x1b[0m'
refused $'-\x1b[2J' - -
refused $'a!!\xc3!!\xff' -
refused $'\xe2\x82"' -
refused "$(long 65537 a)" -
refused "$(long 65536 '(')" -
refused - "$(long 65537 $'\x07')"
bytes="$(printf '\\x%02x' {1..255})"
# shellcheck disable=SC2059
bytes="$(printf "$bytes")"
refused "$bytes" -
sum_up refusals

# names SHOWN WORD..: the words make a command, and the report shows a name so.
names() {
    begin_words "${@:2}"
    explain "${@:2}"
    wants 0 "$1"
    finish
}
names '"\x1b[2J\x07"' -u $'OPEN:\x1b\\[2J\x07' STDOUT
names '"\xff\xfe"' -u $'OPEN:\xff\xfe' STDOUT
names '"a\x0ab"' -u $'OPEN:a\nb' STDOUT
names '"a\x5cx0ab"' -u 'OPEN:a\\x0ab' STDOUT
names 'runs "\xc3\xa9" "\x7f"' STDIO $'EXEC:\xc3\xa9 \x7f'
names "\"$(long 60000 n)\"" -u "OPEN:$(long 60000 n)" STDOUT

# --- where nothing can be written

begin 'a full device'
"$program" -u STDIN STDOUT >/dev/full
wrong_if "$(ended_with 3 $?)"
finish
begin 'a closed output'
"$program" -u STDIN STDOUT >&-
wrong_if "$(ended_with 3 $?)"
finish
begin 'a refusal on a full device'
"$program" -b >/dev/full
wrong_if "$(ended_with 3 $?)"
finish
begin 'a reader that closed'
{
    "$program" "$(long 65537 a)" -
    echo "$?" >"$scratch/ended"
} | head -c 1 >/dev/null
wrong_if "$(ended_with 3 "$(<"$scratch/ended")")"
finish

end_cases
