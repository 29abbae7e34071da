# What is left behind after many relays, and what one costs that waits.

many="${MANY:-200}"
[ -z "$audits" ] || many=10

# --- many in a row

# A short relay may leave no file, no process, and no connection at its peer.

# held_by PEER: how many descriptors the peer has.
held_by() { find "/proc/${pids[$1]}/fd" -mindepth 1 2>/dev/null | wc -l; }

# row_of KIND ADDRESS: connects so many times to one peer, which sends a text and closes.
row_of() {
    held="$(held_by peer1)"
    leaves_nothing "$many" text idle -u "$1" STDOUT
    now="$(held_by peer1)"
    [ "$now" -le "$held" ] || wrong "the peer had $held descriptors, and now $now"
}

begin "$many relays in a row from a TCP listener leave nothing behind"
peer listen tcp4 "times=$((many + 1))" send=text
row_of "TCP4:127.0.0.1:$port"
finish

begin "$many relays in a row from a Unix listener leave nothing behind"
peer listen unix at=called "times=$((many + 1))" send=text
row_of UNIX-CONNECT:called
finish

begin "50 Unix listeners in a row at one file"
for round in {1..50}; do
    given "$round"
    start relay -t10 UNIX-LISTEN:served STDIO
    start caller -t10 STDIO UNIX-CONNECT:served,retry=1000,interval=0.01
    ended caller 0 "$round" ''
    ended relay 0 "$round" ''
    [ ! -e served ] || wrong "the file is still there in round $round"
    [ -z "$problem" ] || break
done
finish

# --- one that waits

# switches_of PID: the times its threads gave the processor up.
switches_of() {
    local switches=0 name value task
    for task in "/proc/$1/task"/*/status; do
        while read -r name value _; do
            [ "$name" != voluntary_ctxt_switches: ] || switches=$((switches + value))
        done <"$task"
    done
    echo "$switches"
}

count_of() { find "$1" -mindepth 1 2>/dev/null | wc -l; }

# look TAG: what it costs and holds so far.
look() {
    local pid="${pids[$1]}"
    ticks="$(ticks_of "$pid")"
    switches="$(switches_of "$pid")"
    descriptors="$(count_of "/proc/$pid/fd")"
    threads="$(count_of "/proc/$pid/task" 2>/dev/null)"
}

begin "relays that wait cost no processor time, and hold the same descriptors"
given_nothing
waiting=(listening connected served local datagrams senders retrying timed)
start listening TCP4-LISTEN:0 STDIO
peer listen tcp4 sleep=30
start connected -t10 STDIO "TCP4:127.0.0.1:$port"
peer listen tcp4 sleep=30
start served TCP4-LISTEN:0 "TCP4:127.0.0.1:$port"
peer connect tcp4 "/@${pids[served]}" sleep=30
start local UNIX-LISTEN:waited STDIO
peer connect unix waited send=x sleep=30
start datagrams UDP4-LISTEN:0 STDIO
peer connect udp4 "/@${pids[datagrams]}" send=x sleep=30
start senders UDP4-LISTEN:0,fork PIPE
for number in 1 2 3; do
    peer connect udp4 "/@${pids[senders]}" send=x read=1 sleep=30
done
start retrying STDIO TCP4:127.0.0.1:1,retry=1,interval=1000
start timed -T100 TCP4-LISTEN:0,range=127.0.0.1/32 STDIO
peer connect tcp4 "/@${pids[timed]}" sleep=30
nap 0.7
declare -A had=()
for tag in "${waiting[@]}"; do
    lives "$tag"
    look "$tag"
    had[$tag]="$ticks $switches $descriptors"
done
nap 2
for tag in "${waiting[@]}"; do
    lives "$tag"
    read -r ticks_then switches_then descriptors_then <<<"${had[$tag]}"
    look "$tag"
    [ "$ticks" -eq "$ticks_then" ] || wrong "$tag: $((ticks - ticks_then)) ticks in 2 s"
    [ "$((switches - switches_then))" -le 2 ] || wrong "$tag: it woke $((switches - switches_then)) times in 2 s"
    [ "$descriptors" -eq "$descriptors_then" ] || wrong "$tag: $descriptors_then descriptors, then $descriptors"
done
finish

trips=5000
[ -z "$audits" ] || trips=50
begin "$trips trips don't add descriptors"
peer listen tcp4 echo
start relay -t10 TCP4-LISTEN:0 "TCP4:127.0.0.1:$port"
peer connect tcp4 "/@${pids[relay]}" trips=100 make=warm wait=go "trips=$trips" make=finished wait=over
until_there warm
look relay
descriptors_then="$descriptors"
: >go
until_there finished
look relay
[ "$descriptors" -eq "$descriptors_then" ] || wrong "$descriptors_then descriptors, then $descriptors"
: >over
ended relay 0 '' ''
told 2 ''
rm -f warm go finished over
finish
