# What a day brings to files, named pipes and programs: pipes that nobody reads, terminals that can't be read any more,
# openings that fail, children that end while nothing passes, and what a child is told of its peer.

# daily_pipe: the folder `files` holds a named pipe, and nothing else.
daily_pipe() {
    with_files
    mkfifo files/pipe
}

daily_reader() { exec cat files/pipe >files/taken; }

# until_asleep TAG NAME: waits until the process is that of this program, and sleeps.
until_asleep() {
    local last=$((SECONDS + limit))
    until [[ "$(cat "/proc/${pids[$1]}/stat" 2>/dev/null)" == *"($2) S "* ]]; do
        if [ "$SECONDS" -gt "$last" ]; then
            wrong "$2 doesn't wait"
            return
        fi
        nap 0.02
    done
}

# fails_left ADDRESS: it can't be opened to be read.
fails_left() { run 1 '' 'socat: open failed on the left after 1 attempts' -u "$1" STDOUT; }

# until_long FILE BYTES: waits until the file has so many bytes.
until_long() {
    local last=$((SECONDS + limit))
    until [ "$(size_of "$1" 2>/dev/null || echo 0)" -ge "$2" ]; do
        if [ "$SECONDS" -gt "$last" ]; then
            wrong "$1 doesn't get $2 bytes"
            return
        fi
        nap 0.05
    done
}

# held_by TAG: how many threads and descriptors it has.
held_by() { echo "$(ls "/proc/${pids[$1]}/task" | wc -l) threads, $(ls "/proc/${pids[$1]}/fd" | wc -l) descriptors"; }

# until_held TAG TEXT: it comes to have no more than these.
until_held() {
    local last=$((SECONDS + limit))
    until [ "$(held_by "$1")" = "$2" ]; do
        if [ "$SECONDS" -gt "$last" ]; then
            wrong "it holds $(held_by "$1"), and held $2"
            return
        fi
        nap 0.05
    done
}

# ended_children_of PID: how many of its children have ended, and weren't waited for.
ended_children_of() {
    local stat count=0 fields
    for stat in /proc/[0-9]*/stat; do
        stat="$(cat "$stat" 2>/dev/null)" || continue
        # shellcheck disable=SC2206
        fields=(${stat##*) })
        [ "${fields[0]}" != Z ] || [ "${fields[1]}" != "$1" ] || count=$((count + 1))
    done
    echo "$count"
}

# --- named pipes that nobody reads

# socat(1) would wait at the opening.
begin_own "nothing for a named pipe that nobody reads: the relay ends"
daily_pipe
run 0 '' '' -T1 -u OPEN:/dev/null PIPE:files/pipe
between 0 8000
no_file pipe
daily_pipe
run 0 '' '' -u OPEN:/dev/null OPEN:files/pipe
between 0 8000
finish

begin "nothing for a named pipe: a reader that waits sees the end, 10 in a row"
for round in {1..10}; do
    daily_pipe
    behind reader daily_reader
    until_asleep reader cat
    given ''
    run 0 '' '' -u STDIN "$([ $((round % 2)) -eq 0 ] || echo PIPE:)./files/pipe"
    await reader
    file_is taken ''
    [ -z "$problem" ] || break
done
finish

if [ -n "$python" ]; then
    begin "clients without a byte before a named pipe that nobody reads: the next one is served"
    daily_pipe
    given_nothing
    start relay -u TCP4-LISTEN:0,fork OPEN:files/pipe
    crowd '5 came' tcp4 "@${pids[relay]}" 5 leave
    peer connect tcp4 "/@${pids[relay]}" send=hello shut
    told 1 ''
    nap 0.2
    behind reader daily_reader
    soon_is taken hello
    lives relay
    finish

    begin "clients with bytes wait for a reader of the named pipe, who gets them all"
    daily_pipe
    given_nothing
    start relay -u TCP4-LISTEN:0,fork OPEN:files/pipe
    for word in one two six; do
        peer connect tcp4 "/@${pids[relay]}" "send=$word" shut
    done
    told 1 ''
    told 2 ''
    told 3 ''
    nap 0.2
    behind reader eval 'exec 7<>files/pipe; head -c 9 <&7 >files/taken'
    until_long files/taken 9
    case "$(<files/taken)" in
        onetwosix | onesixtwo | twoonesix | twosixone | sixonetwo | sixtwoone) ;;
        *) wrong "the reader got $(head -c 60 files/taken)" ;;
    esac
    finish

    begin_own "1000 sessions before a named pipe that nobody reads leave no thread and no descriptor"
    daily_pipe
    given_nothing
    limit=$((60 * patience))
    start relay -u TCP4-LISTEN:0,fork OPEN:files/pipe
    crowd '1 came' tcp4 "@${pids[relay]}" 1 leave
    nap 0.3
    before="$(held_by relay)"
    crowd '1000 came' tcp4 "@${pids[relay]}" 1000 leave
    nap 1
    until_held relay "$before"
    peer connect tcp4 "/@${pids[relay]}" send=hello shut
    behind reader eval 'exec 7<>files/pipe; head -c 5 <&7 >files/taken'
    soon_is taken hello
    limit=$((15 * patience))
    finish
fi

# --- terminals

# The system gives a process of the background no byte of its terminal, but EIO, as when that hung up.
if [ -n "$python" ] && [ -c /dev/tty ]; then
    begin_own "a terminal that can't be read any more is at its end"
    problem="$("$python" -ES "$here/tests/program/terminal.py" "$program" -u OPEN:/dev/tty STDOUT 2>&1 8<&-)"
    finish
fi

# --- openings that fail

begin_own "GOPEN that is only read, with trunc: it fails, and makes nothing"
with_files
fails_left GOPEN:files/new,trunc
no_file new
fails_left ./files/new,creat,trunc
no_file new
finish

begin_own "GOPEN that is only read, with trunc: it fails, and empties nothing"
with_files old 'a text'
fails_left GOPEN:files/old,trunc
file_is old 'a text'
finish

begin_own "what is asked in vain removes nothing"
with_files old 'a text'
fails_left OPEN:files/old,trunc,unlink-early
file_is old 'a text'
finish

begin "GOPEN,creat that is only read"
with_files old 'a text'
given_nothing
run 0 'a text' '' -u GOPEN:files/old,creat STDOUT
run 0 '' '' -u GOPEN:files/new,creat STDOUT
file_is new ''
finish

# --- append and trunc

begin "OPEN,append,trunc empties the file, and then writes at its end"
with_files old abcdef
given_by_hand
start relay -u STDIN OPEN:files/old,append,trunc
give 1
soon_is old 1
printf d >>files/old
give 2
give_end
ended relay 0 '' ''
file_is old 1d2
finish

begin "OPEN,creat,append,trunc makes a file"
with_files
given XY
run 0 '' '' -u STDIN OPEN:files/new,creat,append,trunc
given Z
run 0 '' '' -u STDIN OPEN:files/new,creat,append,trunc
file_is new Z
finish

begin "OPEN,append,trunc both ways empties the file"
with_files old 'a text'
given XY
start relay STDIO OPEN:files/old,append,trunc
await relay
[ "$status" -eq 0 ] || wrong "status $status, said $(cat relay.err)"
file_is old XY
finish

begin "GOPEN,trunc writes at the end also where the file has grown"
with_files old abcdef
given_by_hand
start relay -u STDIN GOPEN:files/old,trunc
give 1
soon_is old 1
printf d >>files/old
give 2
give_end
ended relay 0 '' ''
file_is old 1d2
finish

begin "OPEN,append,trunc of a device that takes all"
given 'a text'
run 0 '' '' -u STDIN OPEN:/dev/null,append,trunc
finish

# --- children

if [ -n "$python" ]; then
    begin "children that end while nothing passes don't stay"
    given_nothing
    start relay -t30 TCP4-LISTEN:0,fork EXEC:cat
    crowd '40 had their own' tcp4 "@${pids[relay]}" 40 echo=1000
    nap 0.5
    left="$(ended_children_of "${pids[relay]}")"
    [ "$left" -le 10 ] || wrong "$left have ended, and are still there"
    lives relay
    finish

    told_of='SYSTEM:echo \"${SOCAT_PEERADDR-none} ${SOCAT_PEERPORT-none}\"'
    export SOCAT_PEERADDR=192.0.2.1 SOCAT_PEERPORT=7
    begin_own "a Unix peer's child isn't told of the caller's peer"
    given_nothing
    start relay -t30 UNIX-LISTEN:served "$told_of"
    peer connect unix served shut read
    ended relay 0 '' ''
    told 1 'none none\n'
    finish

    begin "a TCP peer's child is told of its own peer"
    given_nothing
    start relay -t30 TCP4-LISTEN:0 "$told_of"
    peer connect tcp4 "/@${pids[relay]}" from=127.0.0.2 shut read
    ended relay 0 '' ''
    told 1 "127.0.0.2 $port\n"
    finish

    begin "a child without a peer has the caller's environment"
    given ''
    run 0 '192.0.2.1 7\n' '' -t30 STDIO "$told_of"
    finish
    unset SOCAT_PEERADDR SOCAT_PEERPORT
fi
rm -rf files
