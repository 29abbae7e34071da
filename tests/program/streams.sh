# Standard input to standard output: plain inputs, and readers, writers and devices that fail.

relay=(-u STDIN STDOUT)

# --- inputs that end

: >"$scratch/empty"
passes "an empty input" "$scratch/empty"

printf 'x' >"$scratch/one"
passes "an input of 1 byte" "$scratch/one"

seq 1 100000 | head -c 8191 >"$scratch/short_block"
passes "an input of 8191 bytes" "$scratch/short_block"

seq 1 100000 | head -c 8192 >"$scratch/block"
passes "an input of 8192 bytes, one block" "$scratch/block"

seq 1 100000 | head -c 8193 >"$scratch/long_block"
passes "an input of 8193 bytes, a block and a byte" "$scratch/long_block"

all_bytes >"$scratch/binary"
passes "every byte value, NUL and FF included" "$scratch/binary"

begin "an input of 100 MB through two pipes"
# What passes much has no journal.
sums="$(large | UNAUDITED=yes timeout 120 "$program" "${relay[@]}" | cksum; echo "${PIPESTATUS[1]}")"
if [ "${sums##*$'\n'}" != 0 ]; then
    wrong "status ${sums##*$'\n'}"
elif [ "${sums%$'\n'*}" != "$(large | cksum)" ]; then
    wrong "other bytes came out"
fi
finish

for block in 1 3 0x10 1048576; do
    begin "blocks of $block bytes"
    seq 1 2000 | timeout 60 "$program" "-b$block" "${relay[@]}" >"$scratch/out"
    status="${PIPESTATUS[1]}"
    if [ "$status" -ne 0 ]; then
        wrong "status $status"
    elif [ "$(cksum <"$scratch/out")" != "$(seq 1 2000 | cksum)" ]; then
        wrong "other bytes came out"
    fi
    finish
done

begin "a writer that is slow and writes in pieces"
got="$( (printf a; sleep 0.2; printf b; sleep 0.2; printf c) | timeout 20 "$program" "${relay[@]}"
    echo " ${PIPESTATUS[1]}")"
[ "$got" = "abc 0" ] || wrong "got '$got'"
finish

begin "a reader that is slow"
got="$(seq 1 300000 | UNAUDITED=yes timeout 20 "$program" "${relay[@]}" | (sleep 0.5; cksum); echo " ${PIPESTATUS[1]}")"
[ "$got" = "$(seq 1 300000 | cksum)"$'\n'" 0" ] || wrong "got '$got'"
finish

# --- dumps

run_case "a dump as text" 0 'a\n' 'a\n' $'> length=2 from=0 to=1\na' -v "${relay[@]}"
run_case "a dump in hexadecimal" 0 'a\n' 'a\n' $'> length=2 from=0 to=1\n 61 0a' -x "${relay[@]}"
run_case "a dump of both" 0 'a\n' 'a\n' $'> length=2 from=0 to=1\n 61 0a\n> length=2 from=0 to=1\na' -v -x "${relay[@]}"
run_case "a dump of each block" 0 'abcdef' 'abcdef' $'> length=4 from=0 to=3\nabcd\n> length=2 from=4 to=5\nef' -b4 -v "${relay[@]}"

begin "a dump of every byte value"
got="$(timeout 60 "$program" -x "${relay[@]}" <"$scratch/binary" 2>&1 >"$scratch/out" | grep -v '^>' | tr -d ' \n')"
if [ "$got" != "$(od -An -v -tx1 "$scratch/binary" | tr -d ' \n')" ]; then
    wrong "other bytes were shown"
elif [ "$(cksum <"$scratch/out")" != "$(cksum <"$scratch/binary")" ]; then
    wrong "other bytes came out"
fi
finish

begin "a dump that can't be written"
got="$(printf abc | timeout 20 "$program" -v "${relay[@]}" 2>/dev/full; echo " ${PIPESTATUS[1]}")"
[ "$got" = "abc 0" ] || wrong "got '$got'"
finish

# --- ends and failures from outside

begin "a reader that closes early, on an input without end"
timeout 20 "$program" "${relay[@]}" </dev/zero 2>"$scratch/err" | head -c 10 >"$scratch/out"
statuses=("${PIPESTATUS[@]}")
if [ "${statuses[0]}" -ne 1 ]; then
    wrong "status ${statuses[0]}"
elif ! said "$scratch/err" 'socat: write failed on the right'; then
    wrong "said $(cat "$scratch/err")"
elif [ "$(size_of "$scratch/out")" -ne 10 ]; then
    wrong "the reader didn't get its 10 bytes"
fi
finish

if [ -c /dev/full ]; then
    begin "a full device as the output"
    printf 'abc' | timeout 20 "$program" "${relay[@]}" >/dev/full 2>"$scratch/err"
    wrong_if "$(ended_with 1 "${PIPESTATUS[1]}")"
    said_write_failed || wrong "said $(cat "$scratch/err")"
    finish
else
    echo "skipped a full device as the output: there is no /dev/full"
fi

# unreadable NAME: the relay of standard input, which can't be read, says so and writes nothing.
unreadable() {
    begin "$1"
    timeout 20 "$program" "${relay[@]}" >"$scratch/out" 2>"$scratch/err"
    wrong_if "$(ended_with 1 $?)"
    said "$scratch/err" 'socat: read failed on the left' || wrong "said $(cat "$scratch/err")"
    [ ! -s "$scratch/out" ] || wrong "something was written"
    finish
}

# What can't be read is a failure, and so is what can't be written.
unreadable "a directory as the input, which can't be read" </
unreadable "standard input closed" <&-

begin "standard output closed"
printf 'abc' | timeout 20 "$program" "${relay[@]}" >&- 2>"$scratch/err"
wrong_if "$(ended_with 1 "${PIPESTATUS[1]}")"
said_write_failed || wrong "said $(cat "$scratch/err")"
finish

begin "a failure with standard error closed"
timeout 20 "$program" "${relay[@]}" </ >"$scratch/out" 2>&-
status=$?
[ "$status" -eq 1 ] || wrong "status $status"
finish

# --- what is shared with other programs

# What a run leaves of a file is the next program's.
begin "a file that the next program reads on"
got="$(seq 1 100000 >"$scratch/numbers"
    (timeout 20 "$program" -u STDIN,readbytes=3 STDOUT && cat) <"$scratch/numbers" | cksum)"
[ "$got" = "$(cksum <"$scratch/numbers")" ] || wrong "other bytes came out"
finish

# Output goes to where the file's position stands, and leaves it behind itself.
begin "a file that other programs write too"
(
    printf one
    printf two | timeout 20 "$program" "${relay[@]}"
    printf three
) >"$scratch/out"
[ "$(cat "$scratch/out")" = onetwothree ] || wrong "got $(head -c 60 "$scratch/out")"
finish

begin "a file that is appended to"
printf 'before ' >"$scratch/out"
printf 'after' | timeout 20 "$program" "${relay[@]}" >>"$scratch/out"
[ "$(cat "$scratch/out")" = 'before after' ] || wrong "got $(head -c 60 "$scratch/out")"
finish

# waits NUMBER: the open file of this descriptor makes its callers wait.
waits() {
    local name flags
    while read -r name flags; do
        [ "$name" != flags: ] || [ $((flags & 04000)) -eq 0 ] || return 1
    done <"/proc/self/fdinfo/$1"
}

if [ -r /proc/self/fdinfo/0 ]; then
    begin "pipes are shared as they were"
    printf 'ab' | (
        waits 0 && waits 1 || echo 'they did not wait before' >&2
        timeout 20 "$program" -u STDIN,readbytes=1 STDOUT
        waits 0 || echo 'the input does not wait' >&2
        waits 1 || echo 'the output does not wait' >&2
        cat
    ) 2>"$scratch/err" | cat >"$scratch/out"
    wrong_if "$(head -1 "$scratch/err")"
    [ "$(cat "$scratch/out")" = ab ] || wrong "got $(head -c 60 "$scratch/out")"
    finish

    # threads_of WORD..: how many threads the relay has between two pipes once a byte has passed. Its errors go where ours go.
    threads_of() {
        local threads
        exec 5> >(sh -c 'echo "$$" >"$0"; exec "$@"' "$scratch/pid" "$program" "$@" | cat >/dev/null)
        printf x >&5
        sleep 0.3
        threads=("/proc/$(cat "$scratch/pid")/task"/*)
        exec 5>&-
        echo "${#threads[@]}"
    }

    # Standard error has a thread only from its first line on, and none where it is a file.
    begin "one thread between two pipes"
    have="$(threads_of "${relay[@]}" 2> >(cat >/dev/null))"
    [ "$have" = 1 ] || wrong "it has $have"
    have="$(threads_of -v "${relay[@]}" 2>"$scratch/err")"
    [ "$have" = 1 ] || wrong "it has $have with a dump to a file"
    have="$(threads_of -v "${relay[@]}" 2> >(cat >/dev/null))"
    [ "$have" = 2 ] || wrong "it has $have with a dump to a pipe"
    finish
fi

# The name of a pipe's descriptor would let it be read in any case.
begin "a pipe as the input that may only be written"
{
    timeout 20 "$program" "${relay[@]}" 0>&1 2>"$scratch/err"
    echo "status $?"
} | cat >"$scratch/out"
if [ "$(cat "$scratch/out")" != 'status 1' ]; then
    wrong "got $(head -c 60 "$scratch/out")"
elif ! said "$scratch/err" 'socat: read failed on the left'; then
    wrong "said $(cat "$scratch/err")"
fi
finish

begin "a pipe as the output that may only be read"
printf abc | (
    sleep 0.2
    timeout 20 "$program" -u STDIN STDOUT 1<&0 2>"$scratch/err"
    echo "status $?" >"$scratch/out"
)
[ "$(cat "$scratch/out")" = 'status 1' ] || wrong "got $(head -c 60 "$scratch/out")"
said_write_failed || wrong "said $(cat "$scratch/err")"
finish

# --- memory and signals

# The most memory that the process held so far, in kB.
peak_of() {
    local name value
    while read -r name value _; do
        if [ "$name" = VmHWM: ]; then
            echo "$value"
            return
        fi
    done <"/proc/$1/status"
}

# feed BYTES: relays so many zeros. `peak` is the most memory that the program held.
feed() {
    local pid
    UNAUDITED=yes "$program" "${relay[@]}" <"$scratch/feed" >/dev/null &
    pid=$!
    after 60 "$pid"
    exec 3>"$scratch/feed"
    head -c "$1" /dev/zero >&3
    peak="$(peak_of "$pid" 2>/dev/null)"
    exec 3>&-
    end_watched "$pid" "$watch"
    if [ "$status" -ne 0 ]; then
        wrong "status $status"
    elif [ -z "$peak" ]; then
        wrong "its memory couldn't be read"
    fi
}

# A wake that is lost shows in one of some hundred relays, and leaves that one asleep for good.
begin "$RELAYS relays of 4 MB in a row come to their ends"
head -c 4194304 /dev/zero >"$scratch/blocks"
for ((number = 1; number <= RELAYS; number++)); do
    UNAUDITED=yes timeout 30 "$program" "${relay[@]}" <"$scratch/blocks" >/dev/null 2>&1
    status=$?
    if [ "$status" -ne 0 ]; then
        wrong "relay $number: status $status"
        break
    fi
done
rm -f "$scratch/blocks"
finish

if [ -r /proc/self/status ]; then
    begin "memory for 200 MB is at most 1 MB above that for 1 MB"
    mkfifo "$scratch/feed"
    feed 1048576
    short="$peak"
    [ -n "$problem" ] || feed 209715200
    if [ -z "$problem" ] && [ "$peak" -gt $((short + 1024)) ]; then
        wrong "it grew from $short kB to $peak kB"
    fi
    name="$name (${peak:-?} kB, ${short:-?} kB)"
    finish
else
    echo "skipped memory: there is no /proc"
fi

begin "SIGTERM ends it while it waits for input"
mkfifo "$scratch/waiting"
exec 4<>"$scratch/waiting"
"$program" "${relay[@]}" <&4 >/dev/null 2>&1 &
pid=$!
after 20 "$pid"
sleep 0.3
kill -TERM "$pid" || wrong "it ended before"
end_watched "$pid" "$watch"
exec 4<&-
[ "$status" -eq 143 ] || wrong "status $status"
finish
