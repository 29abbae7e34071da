# Words that ask for no relay: they are refused or printed before anything outside is touched.

# untouched NAME STATUS WORD..: the program starts no thread, opens no descriptor of its own and asks nothing of its
# standard streams but for the line that it says.
untouched() {
    local wanted="$2" status calls="$scratch/calls"
    begin "$1"
    shift 2
    timeout 60 strace -f -o "$calls" -e trace=process,desc,network "${AUDITED:-$program}" "$@" </dev/null >/dev/null 2>"$scratch/err"
    status=$?
    [ "$status" -eq "$wanted" ] || wrong "status $status, said $(head -c 200 "$scratch/err")"
    [ -s "$scratch/err" ] || wrong "it said nothing"
    if grep -E 'clone|epoll_|eventfd|socket|pipe2?\(|"/"|/proc/self/fd' "$calls" >"$scratch/touched"; then
        wrong "it made $(head -1 "$scratch/touched")"
    fi
    finish
}

if command -v strace >/dev/null && strace -o /dev/null true 2>/dev/null; then
    untouched "an unknown kind of address" 1 FOO STDIO
    untouched "an empty address" 1 - ''
    untouched "an address that is missing" 1 STDIN
    untouched "an unknown flag" 1 --no-such-flag
    untouched "the version" 0 -V
    untouched "the usage" 0 -h
else
    echo "skipped what is refused: there is no strace that may trace"
fi

# They are answered as ever with standard streams that are closed, and a journal's file never gets their lines.
begin "a refusal without standard error isn't written to the journal"
rm -f "$scratch/refused.journal"
timeout 20 "$program" "--journal=$scratch/refused.journal" - '' </dev/null 2>&-
wrong_if "$(ended_with 1 $?)"
wrong_if "$(holds "$scratch/refused.journal" '')"
finish
