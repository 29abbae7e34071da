# Commands with `fork`: crowds of clients, each in a session of its own.

# zombies TAG: how many children of the relay have ended and weren't asked for.
zombies() { ps -o stat= --ppid "${pids[$1]}" 2>/dev/null | grep -c '^Z'; }

# descriptors TAG: how many the relay has open.
descriptors() { ls "/proc/${pids[$1]}/fd" | wc -l; }

begin "200 clients at once behind TCP-LISTEN,fork, each with a program of its own"
given_nothing
UNAUDITED=yes start relay -t30 TCP4-LISTEN:0,fork,stop-after=200 EXEC:cat
crowd '200 had their own' tcp4 "@${pids[relay]}" 200
ended relay 0 '' ''
finish

begin "200 clients at once, each with a connection of its own to one server"
given_nothing
UNAUDITED=yes start server -t30 TCP4-LISTEN:0,fork,stop-after=200 PIPE
listens server tcp4
UNAUDITED=yes start relay -t30 TCP4-LISTEN:0,fork,stop-after=200 "TCP4:127.0.0.1:$port"
crowd '200 had their own' tcp4 "@${pids[relay]}" 200
ended relay 0 '' ''
await server
finish

begin "200 clients at once, with a journal"
given_nothing
start relay -t10 TCP4-LISTEN:0,fork,stop-after=200 PIPE
crowd '200 had their own' tcp4 "@${pids[relay]}" 200 echo=5000
ended relay 0 '' ''
finish

for count in 1 2 50; do
    begin "max-children=$count: all of 60 clients are served in the end"
    given_nothing
    UNAUDITED=yes start relay -t30 "TCP4-LISTEN:0,fork,max-children=$count,stop-after=60" PIPE
    crowd '60 had their own' tcp4 "@${pids[relay]}" 60 echo=1000
    ended relay 0 '' ''
    finish
done

begin "a range with fork: who isn't in it is closed, and isn't counted"
given_nothing
UNAUDITED=yes start relay -t10 TCP4-LISTEN:0,fork,range=127.0.0.1/32,stop-after=20 PIPE
listens relay tcp4
at="$port"
peer connect tcp4 "/$at" from=127.0.0.2 knocks=20
told 1 '20 gone\n'
lives relay
crowd '19 had their own' tcp4 "$at" 19 echo=1000
peer connect tcp4 "/$at" from=127.0.0.2 gone
told 2 'gone\n'
crowd '1 had their own' tcp4 "$at" 1
ended relay 0 '' ''
finish

begin "clients that never read, and clients that never write, hold nobody up"
given_nothing
UNAUDITED=yes start relay -t10 TCP4-LISTEN:0,fork PIPE
listens relay tcp4
at="$port"
for number in 1 2 3; do
    start_peer connect tcp4 "/$at" fill=100000000
    start_peer connect tcp4 "/$at" read
done
nap 0.5
crowd '50 had their own' tcp4 "$at" 50
for number in {1..6}; do
    lives "peer$number"
done
lives relay
finish

begin "500 clients that connect and leave, and then one that talks"
given_nothing
UNAUDITED=yes start relay -t0.1 TCP4-LISTEN:0,fork,stop-after=501 PIPE
crowd '500 came' tcp4 "@${pids[relay]}" 500 leave
crowd '1 had their own' tcp4 "@${pids[relay]}" 1
await relay
finish

begin "100 clients that reset, and then one that talks"
given_nothing
UNAUDITED=yes start relay -t0.1 TCP4-LISTEN:0,fork,stop-after=101 PIPE
crowd '100 came' tcp4 "@${pids[relay]}" 100 reset
crowd '1 had their own' tcp4 "@${pids[relay]}" 1
await relay
finish

begin "descriptors and children are let go with the sessions of 500 clients"
given_nothing
UNAUDITED=yes start relay -t30 TCP4-LISTEN:0,fork EXEC:cat
listens relay tcp4
before="$(descriptors relay)"
for ((number = 1; number <= 5; number++)); do
    crowd '100 had their own' tcp4 "$port" 100 echo=1000
done
crowd '1 had their own' tcp4 "$port" 1
nap 0.5
[ "$(descriptors relay)" -le "$before" ] || wrong "it holds $(descriptors relay) descriptors, and held $before"
[ "$(zombies relay)" -le 5 ] || wrong "$(zombies relay) children are defunct"
lives relay
finish

# stay COUNT: starts so many clients at the port that talk once and stay, and waits until they have talked.
stay() {
    local number
    for ((number = 1; number <= $1; number++)); do
        start_peer connect tcp4 "/$port" send=x read=1 read
    done
    for ((number = 1; number <= $1; number++)); do
        told_port "$number"
    done
    nap 1
}

# start_short: starts an echo with `fork` that may have 64 descriptors.
start_short() {
    local most
    most="$(ulimit -Sn)"
    given_nothing
    ulimit -Sn 64
    UNAUDITED=yes start relay -t30 TCP4-LISTEN:0,fork PIPE
    ulimit -Sn "$most"
}

begin "where descriptors run out the rest is served later"
start_short
crowd '200 had their own' tcp4 "@${pids[relay]}" 200 echo=1000
lives relay
finish

begin "where descriptors run out it waits and isn't busy"
start_short
listens relay tcp4
stay 70
[ "$(descriptors relay)" -ge 60 ] || wrong "it holds $(descriptors relay) descriptors"
ticks_before="$(ticks_of "${pids[relay]}")"
nap 2
spent=$(($(ticks_of "${pids[relay]}") - ticks_before))
[ "$spent" -le 20 ] || wrong "it took $spent hundredths of a second in 2 s"
lives relay
finish

begin "a Unix socket with fork"
given_nothing
UNAUDITED=yes start relay -t30 UNIX-LISTEN:socket,fork,stop-after=50 EXEC:cat
listens_at socket
crowd '50 had their own' unix socket 50
ended relay 0 '' ''
[ ! -e socket ] || wrong "the socket is left"
finish

begin "UDP-RECVFROM with fork: each datagram is a session"
given_nothing
UNAUDITED=yes start relay -t0.2 UDP4-RECVFROM:0,fork,stop-after=50 PIPE
crowd '50 had their own' udp4 "@${pids[relay]}" 50 echo=1000
ended relay 0 '' ''
finish

begin "UDP-RECVFROM with fork: a program for each datagram"
given_nothing
UNAUDITED=yes start relay -t10 UDP4-RECVFROM:0,fork,stop-after=20 EXEC:cat
crowd '20 had their own' udp4 "@${pids[relay]}" 20 echo=1000
ended relay 0 '' ''
finish

# both_in_turn FLAG TEXT: two clients at once talk in turn to a relay with this flag, which says just this text.
both_in_turn() {
    given_nothing
    rm -f first second third
    start relay "$1" TCP4-LISTEN:0,fork,stop-after=2 PIPE
    listens relay tcp4
    peer connect tcp4 "/$port" send=ab read=2 make=first wait=second send=d read=1 make=third
    listens relay tcp4
    peer connect tcp4 "/$port" wait=first 'send=c\n' read=2 make=second wait=third 'send=\\\t' read=2
    told 1 abd
    told 2 'c\n\\\t'
    await relay
    [ "$status" -eq 0 ] || wrong "status $status"
    [ "$(cat relay.err)" = "$2" ] || wrong "it said $(head -c 400 relay.err)"
    finish
}

# ways LENGTH FROM TO BYTES: the dump of these bytes to the right, and that of their echo.
ways() { printf '%s length=%s from=%s to=%s\n%s\n' '>' "$@" '<' "$@"; }

begin_own "-v with fork: each session counts its own bytes"
both_in_turn -v "$(ways 2 0 1 ab && ways 2 0 1 c && ways 1 2 2 d && ways 2 2 3 '\\\t')"

begin_own "-x with fork: each session counts its own bytes"
both_in_turn -x "$(ways 2 0 1 ' 61 62' && ways 2 0 1 ' 63 0a' && ways 1 2 2 ' 64' && ways 2 2 3 ' 5c 09')"

begin "SIGTERM ends it with 100 sessions"
given_nothing
UNAUDITED=yes start relay TCP4-LISTEN:0,fork PIPE
listens relay tcp4
stay 100
[ "$(descriptors relay)" -ge 100 ] || wrong "it holds $(descriptors relay) descriptors"
terminate relay
await relay
[ "$status" -eq 143 ] || wrong "status $status"
finish
