# How a relay ends: with standard streams that are closed, by signals, at full devices and at readers that close early;
# and what is left of it then.

# --- closed standard streams

# close_streams STREAMS: this shell has these standard streams no more.
close_streams() {
    local stream
    for stream in $1; do
        case "$stream" in
            0) exec 0<&- ;;
            1) exec 1>&- ;;
            2) exec 2>&- ;;
        esac
    done
}

# start_without STREAMS WORD..: a relay that has these streams no more.
start_without() {
    rm -f relay.out relay.err
    (
        trap - EXIT
        close_streams "$1"
        exec "$program" "${@:2}"
    ) <"$input" >relay.out 2>relay.err 8<&- &
    pids[relay]=$!
    begun="${EPOCHREALTIME/[.,]/}"
}

# run_without STREAMS STATUS WORD..: such a relay ends with the status.
run_without() {
    start_without "$1" "${@:3}"
    await relay
    [ "$status" -eq "$2" ] || wrong "without $1: status $status, said $(head -c 200 relay.err)"
}

for streams in 0 1 2 '0 1' '0 2' '1 2' '0 1 2'; do
    begin "without the streams $streams: file to file"
    with_files
    all_bytes >files/old
    run_without "$streams" 0 -u OPEN:files/old CREATE:files/new
    wrong_if "$(same files/new files/old)"
    wrong_if "$(holds relay.out '')"
    wrong_if "$(holds relay.err '')"
    finish

    # A file may get the number of a stream that is closed, and no line may come into it, as it does in socat(1).
    begin_own "without the streams $streams: a line isn't written to a file"
    with_files one 'a text' two 'a text'
    run_without "$streams" 1 -u OPEN:files/one OPEN:files/none
    run_without "$streams" 1 OPEN:files/one OPEN:files/none
    file_is one 'a text'
    if [ -c /dev/full ]; then
        run_without "$streams" 1 -u OPEN:/dev/zero OPEN:/dev/full
        given_nothing
        run_without "$streams" 1 -t20 'OPEN:/dev/zero!!CREATE:files/two' 'OPEN:files/one!!OPEN:/dev/full'
        case "$(<files/two)" in
            '' | 'a text') ;;
            *) wrong "two holds $(head -c 200 files/two)" ;;
        esac
    fi
    finish
done

for streams in 2 '0 2' '1 2' '0 1 2'; do
    begin_own "without the streams $streams: no file stands where lines are written"
    with_files
    mkfifo files/pipe
    exec 7<>files/pipe
    given_nothing
    start_without "$streams" -u OPEN:files/pipe CREATE:files/new
    last=$((SECONDS + limit))
    until [ -e files/new ] || [ "$SECONDS" -gt "$last" ]; do
        nap 0.05
    done
    nap 0.2
    lives relay
    case "$(readlink "/proc/${pids[relay]}/fd/2")" in
        */files/*) wrong "its second descriptor is the file" ;;
    esac
    terminate relay
    await relay
    exec 7>&-
    finish
done

# In socat(1) what is opened next takes the place of the stream.
for streams in 0 '0 2'; do
    begin_own "without the streams $streams: standard input can't be read"
    with_files
    run_without "$streams" 1 -u STDIN CREATE:files/new
    file_is new ''
    [ "$streams" != 0 ] || [ -z "$own" ] || said relay.err 'socat: read failed on the left' || wrong "it said $(<relay.err)"
    finish
done

for streams in 1 '1 2'; do
    begin_own "without the streams $streams: standard output can't be written"
    with_files old 'a text'
    run_without "$streams" 1 -u OPEN:files/old STDOUT
    file_is old 'a text'
    finish
done

begin_own "without standard streams both ways: what needs them fails"
given hi
for streams in 0 1 '0 1' '0 2' '1 2' '0 1 2'; do
    run_without "$streams" 1 STDIO PIPE
done
finish

begin "without standard error both ways"
given hi
run_without 2 0 STDIO PIPE
wrong_if "$(holds relay.out hi)"
finish

if [ -n "$python" ]; then
    # What the kernel gives to a socket is then the number of a stream.
    for streams in 0 1 2 '0 1 2'; do
        begin "without the streams $streams: TCP to the echo pipe, and to a file"
        with_files
        given_nothing
        start_without "$streams" -t10 TCP4-LISTEN:0 PIPE
        peer connect tcp4 "/@${pids[relay]}" trips=10 shut read
        await relay
        [ "$status" -eq 0 ] || wrong "status $status"
        told 1 ''
        start_without "$streams" -u TCP4-LISTEN:0 CREATE:files/new
        peer connect tcp4 "/@${pids[relay]}" 'send=a text'
        await relay
        [ "$status" -eq 0 ] || wrong "status $status"
        file_is new 'a text'
        finish
    done
fi

# --- signals

# ends_by SIGNAL STATUS: the relay that was started goes on until the signal, and is then over at once.
ends_by() {
    nap 0.4
    lives relay
    kill "-$1" "${pids[relay]}" 2>/dev/null
    begun="${EPOCHREALTIME/[.,]/}"
    await relay
    [ "$status" -eq "$2" ] || wrong "status $status, said $(head -c 200 relay.err)"
    between 0 5000
}

# no_reader: a named pipe that is held open, and that nobody reads.
no_reader() {
    with_files
    mkfifo files/pipe
    exec 7<>files/pipe
}

for row in 'TERM 143' 'HUP 129'; do
    begin "SIG${row% *} while bytes wait for a named pipe"
    no_reader
    input=/dev/zero
    # who runs this with nohup ignores hang-ups, and what is started here would too
    using=env start relay "--default-signal=${row% *}" "$program" -u STDIN OPEN:files/pipe
    ends_by "${row% *}" "${row#* }"
    exec 7>&-
    finish
done

begin "SIGTERM while bytes wait for standard output"
no_reader
"$program" -u STDIN STDOUT </dev/zero >files/pipe 2>relay.err 8<&- &
pids[relay]=$!
ends_by TERM 143
exec 7>&-
finish

begin "SIGTERM while a named pipe waits for its other end"
with_files
mkfifo files/pipe
given_nothing
start relay -u PIPE:files/pipe STDOUT
ends_by TERM 143
finish

begin "SIGTERM while a child reads nothing"
with_files
input=/dev/zero
start relay -u STDIN 'SYSTEM:echo $$ >files/pid; exec sleep 20'
until_there files/pid
ends_by TERM 143
kill "$(<files/pid)" 2>/dev/null
finish

begin "SIGTERM while a child writes nothing"
with_files
given_nothing
start relay STDIO 'SYSTEM:echo $$ >files/pid; exec sleep 20'
until_there files/pid
ends_by TERM 143
kill "$(<files/pid)" 2>/dev/null
finish

begin "stopped and continued, and every byte passes"
with_files
seq 1 200000 >files/old
mkfifo files/pipe
cat files/pipe >files/new &
pids[reader]=$!
given_nothing
start relay -u OPEN:files/old OPEN:files/pipe
for _ in 1 2 3 4 5; do
    kill -STOP "${pids[relay]}" 2>/dev/null
    nap 0.05
    kill -CONT "${pids[relay]}" 2>/dev/null
    nap 0.02
done
ended relay 0 '' ''
await reader
wrong_if "$(same files/new files/old)"
finish

# --- full devices

# fails_writing WORD..: the relay fails at a write on the right, and says so in one line.
fails_writing() {
    start relay "$@"
    await relay
    [ "$status" -eq 1 ] || wrong "status $status"
    [ -z "$own" ] || said relay.err 'socat: write failed on the right' || wrong "it said $(head -c 200 relay.err)"
}

if [ -c /dev/full ]; then
    for kind in OPEN GOPEN CREATE; do
        begin "$kind of a full device"
        input=/dev/zero
        fails_writing -u STDIN "$kind:/dev/full"
        finish
    done

    # The write fails when the relay may be over; the failure is told all the same.
    begin "few bytes to a full device"
    given abc
    start relay -u STDIN OPEN:/dev/full
    await relay
    [ "$status" -eq 1 ] || wrong "status $status"
    case "$(<relay.err)" in
        *'write failed'* | *'No space left'*) ;;
        *) wrong "it said $(head -c 200 relay.err)" ;;
    esac
    finish

    begin "a full device and a file, both ways"
    with_files old 'a text'
    input=/dev/zero
    start relay -t5 STDIO 'OPEN:files/old!!OPEN:/dev/full'
    await relay
    [ "$status" -eq 1 ] || wrong "status $status"
    finish
fi

# A file that may grow no more is as a full device. The limit counts in 1024 bytes.
begin "a file that may grow no more"
with_files
(
    trap '' XFSZ
    ulimit -f 64
    # Its journal too could grow no more.
    UNAUDITED=yes timeout "$limit" "$program" -u OPEN:/dev/zero CREATE:files/new 2>relay.err 8<&-
)
status=$?
[ "$status" -eq 1 ] || wrong "status $status"
[ "$(size_of files/new)" -le 65536 ] || wrong "it has $(size_of files/new) bytes"
[ -z "$own" ] || said relay.err 'socat: write failed on the right' || wrong "it said $(head -c 200 relay.err)"
finish

# --- readers that close early

begin "a reader of a named pipe that closes early"
with_files
mkfifo files/pipe
head -c 10 files/pipe >files/taken &
pids[reader]=$!
input=/dev/zero
fails_writing -u STDIN OPEN:files/pipe
[ "$(size_of files/taken)" -eq 10 ] || wrong "the reader didn't get its 10 bytes"
finish

begin "a reader of standard output that closes early, on a file without end"
timeout "$limit" "$program" -u OPEN:/dev/zero STDOUT 2>relay.err 8<&- | head -c 10 >taken
status="${PIPESTATUS[0]}"
[ "$status" -eq 1 ] || wrong "status $status"
[ -z "$own" ] || said relay.err 'socat: write failed on the right' || wrong "it said $(head -c 200 relay.err)"
rm -f taken
finish

begin "a reader that closes while nothing is written: the next byte fails"
with_files
mkfifo files/pipe
given_slowly a 0.5 b 0.3 c 20 ''
start relay -u STDIN OPEN:files/pipe
head -c 1 files/pipe >files/taken
await relay
[ "$status" -eq 1 ] || wrong "status $status"
file_is taken a
finish

# --- what is held while it runs, and what is left

# count_children PID: `children` is how many it has, zombies included.
count_children() {
    local stat rest fields
    children=0
    for stat in /proc/[0-9]*/stat; do
        { read -r rest <"$stat"; } 2>/dev/null || continue
        # shellcheck disable=SC2206
        fields=(${rest##*) })
        [ "${fields[1]:-0}" != "$1" ] || children=$((children + 1))
    done
}

# look_at TAG: `looks` are its descriptors, threads and children. Of some looks the least counts, since an opening that is
# under way holds more for a moment.
look_at() {
    local pid="${pids[$1]}" look held tasks
    looks=''
    for look in 1 2 3 4 5 6; do
        held=("/proc/$pid/fd"/*)
        tasks=("/proc/$pid/task"/*)
        count_children "$pid"
        if [ -z "$looks" ] || [ "${#held[@]}" -lt "${looks%% *}" ]; then
            looks="${#held[@]} ${#tasks[@]} $children"
        fi
        nap 0.02
    done
}

# settled TAG: looks until it holds the same for half a second.
settled() {
    local before='' last=$((SECONDS + limit))
    until [ "${looks:-}" = "$before" ] && [ -n "$before" ] || [ "$SECONDS" -gt "$last" ]; do
        before="${looks:-}"
        nap 0.5
        look_at "$1"
    done
}

# holds_more: whether it holds more of something than before.
holds_more() {
    local before now at
    read -ra before <<<"$1"
    look_at relay
    read -ra now <<<"$looks"
    for at in 0 1 2; do
        [ "${now[at]}" -le "${before[at]}" ] || return 0
    done
    return 1
}

# looks_stay NAME: it holds no more descriptors, threads and children than before. What is being opened just now is held
# for a moment.
looks_stay() {
    local before="$looks" look
    lives relay
    for look in 1 2 3 4 5; do
        holds_more "$before" || return
        nap 0.07
    done
    wrong "$1: $before, then $looks descriptors, threads and children"
}

# tries_cost_nothing WORD..: the relay of these words tries to open an address again and again.
tries_cost_nothing() {
    given_nothing
    start relay -g "$@"
    nap 0.5
    looks=''
    settled relay
    nap 0.5
    looks_stay "$*"
    terminate relay
    await relay
    [ "$status" -eq 143 ] || wrong "status $status"
}

if [ -d /proc/self/task ]; then
    begin_own "openings that fail again and again hold nothing"
    with_files plain 'a text'
    chmod 644 files/plain
    tries_cost_nothing STDIO OPEN:files/none,forever,interval=0.01
    tries_cost_nothing STDIO PIPE:files/plain,forever,interval=0.01
    tries_cost_nothing STDIO EXEC:./files/none,forever,interval=0.01
    tries_cost_nothing STDIO EXEC:./files/plain,forever,interval=0.01
    finish

    begin "a file that was read to its end, and pieces that pass, hold nothing more"
    with_files old 'a text'
    mkfifo files/pipe
    exec 7<>files/pipe
    input=files/pipe
    start relay -t60 STDIO 'OPEN:files/old!!CREATE:files/new'
    printf a >&7
    soon_is new a
    looks=''
    settled relay
    for piece in b c d e f g h i j k; do
        printf '%s' "$piece" >&7
        nap 0.02
    done
    looks_stay "ten pieces"
    terminate relay
    await relay
    exec 7>&-
    finish

    begin "a child that waits is one child"
    with_files
    given_nothing
    start relay -t60 STDIO EXEC:cat
    looks=''
    until [ "${looks##* }" = 1 ] || [ "${EPOCHREALTIME/[.,]/}" -gt "$((begun + limit * 1000000))" ]; do
        look_at relay
    done
    [ "${looks##* }" = 1 ] || wrong "it has ${looks##* } children"
    looks_stay "a child"
    terminate relay
    await relay
    finish
else
    echo "skipped descriptors, threads and children: there is no /proc"
fi

begin "30 relays of a file in a row leave nothing behind"
with_files old text
leaves_nothing 30 text /dev/null -u OPEN:files/old STDOUT
finish

begin "30 children in a row leave nothing behind"
with_files
leaves_nothing 30 text /dev/null -u 'EXEC:echo text' STDOUT
leaves_nothing 30 text /dev/null -u 'SYSTEM:echo text' STDOUT
finish
rm -rf files
