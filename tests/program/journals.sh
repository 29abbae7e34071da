# Runs whose history is written to a file, which the auditor then reads.

journal="$scratch/journal"

# saves NAME INPUT OUTPUT WORD..: the relay of the words passes the input on, and writes a journal that the auditor finds
# in order.
saves() {
    rm -f "$journal"
    run_case "$1" 0 "$2" "$3" '' "--journal=$journal" "${@:4}"
    begin "$1, audited"
    audited_is_whole "${@:4}"
    finish
}

# audited_is_whole WORD..: the auditor says yes to the journal, and that nothing is held.
audited_is_whole() {
    local said
    said="$("${AUDITOR:-$here/bin/socat-audit}" "$journal" "$@")"
    [[ "$said" == yes:*' 0 held' ]] || wrong "the auditor said $said"
}

saves "a journal of a one-way relay" 'abc' 'abc' -u STDIN STDOUT
saves "a journal of an echo" 'hi' 'hi' STDIO PIPE
saves "a journal of nothing" '' '' -u STDIN STDOUT

printf 'what stood there before' >"$journal"
run_case "a file that was there" 0 '' '' '' "--journal=$journal" -u STDIN STDOUT
begin "it is emptied first"
! grep -q before "$journal" || wrong 'it keeps what stood there'
finish

run_case "words that are refused" 1 '' '' 'socat: E05 word 2: empty address' "--journal=$journal" - ''
begin "the file is empty"
wrong_if "$(holds "$journal" '')"
finish

# --- files that can't be made or written: the relay is as ever, but for its status and a line

unwritten="socat: the journal couldn't be written"
run_case "a folder as a journal" 1 'abc' 'abc' "$unwritten" "--journal=$scratch" -u STDIN STDOUT
run_case "a journal without a name" 1 'abc' 'abc' "$unwritten" --journal= -u STDIN STDOUT
run_case "a journal in no folder" 1 'abc' 'abc' "$unwritten" "--journal=$scratch/none/journal" -u STDIN STDOUT
run_case "a journal whose name is no text" 1 'abc' 'abc' "$unwritten" "--journal=$scratch/"$'\xff' -u STDIN STDOUT
[ ! -e /dev/full ] || run_case "a journal on a full disk" 1 'abc' 'abc' "$unwritten" --journal=/dev/full -u STDIN STDOUT

# The opening of a named pipe would wait for a reader.
mkfifo "$scratch/journal.pipe"
run_case "a named pipe as a journal" 1 'abc' 'abc' "$unwritten" "--journal=$scratch/journal.pipe" -u STDIN STDOUT
rm -f "$scratch/journal.pipe"

begin "words that are refused, and a journal that can't be made"
timeout 20 "$program" "--journal=$scratch" - '' </dev/null >/dev/null 2>"$scratch/err"
wrong_if "$(ended_with 1 $?)"
[ "$(cat "$scratch/err")" = $'socat: E05 word 2: empty address\n'"$unwritten" ] || wrong "said $(head -c 200 "$scratch/err")"
finish

# --- a signal that comes while the journal is written

if command -v strace >/dev/null && strace -o /dev/null true 2>/dev/null; then
    rm -f "$journal"
    begin "a journal whose writing is interrupted"
    printf abc | timeout 60 strace -f -o "$scratch/calls" -P "$journal" -e inject=write:error=EINTR:when=1 \
        "$program" "--journal=$journal" -u STDIN STDOUT >"$scratch/out" 2>"$scratch/err"
    status="${PIPESTATUS[1]}"
    grep -q 'EINTR.*INJECTED' "$scratch/calls" || wrong "no write was interrupted"
    [ "$status" -eq 0 ] || wrong "status $status, said $(head -c 200 "$scratch/err")"
    audited_is_whole -u STDIN STDOUT
    finish
else
    echo "skipped interrupted journals: there is no strace that may trace"
fi
