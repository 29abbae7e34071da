# Which peers a listener takes (range, sourceport, lowport), and peers that go away before they are accepted.

# --- range

# takes_second OPTION REFUSED TAKEN: a peer from the address REFUSED is closed, and one from TAKEN is served.
takes_second() {
    given pong
    start relay -t10 "TCP4-LISTEN:0,$1" STDIO
    listens relay tcp4
    local at="$port"
    peer connect tcp4 "/$at" "from=$2" gone
    told 1 'gone\n'
    lives relay
    peer connect tcp4 "/$at" "from=$3" send=ping shut read
    ended relay 0 ping ''
    told 2 pong
}

# keeps_out NAME LISTENER: a peer over IPv6 is closed, and the listener stays.
keeps_out() {
    begin "$1"
    given_nothing
    start relay -t10 "$2" STDIO
    peer connect tcp6 "/@${pids[relay]}" gone
    told 1 'gone\n'
    lives relay
    terminate relay
    ended relay 143 '' ''
    finish
}

begin "a range takes its peer after it refused another"
takes_second range=127.0.0.1/32 127.0.0.2 127.0.0.1
finish

begin "a range with a mask"
takes_second range=127.0.0.4:255.255.255.252 127.0.0.3 127.0.0.6
finish

begin "of a range's address only the bits of its network count"
takes_second range=127.0.7.9/24 127.0.6.9 127.0.7.1
finish

begin "a range without bits takes every peer"
given pong
start relay -t10 TCP4-LISTEN:0,range=10.0.0.0/0 STDIO
peer connect tcp4 "/@${pids[relay]}" send=ping shut read
ended relay 0 ping ''
told 1 pong
finish

begin "a hundred refused peers in a row, and then the one"
given pong
start relay -t10 TCP4-LISTEN:0,range=127.0.0.1/32 STDIO
listens relay tcp4
at="$port"
peer connect tcp4 "/$at" from=127.0.0.2 knocks=100
told 1 '100 gone\n'
lives relay
peer connect tcp4 "/$at" send=ping shut read
ended relay 0 ping ''
told 2 pong
finish

if [ -n "$ipv6" ]; then
    lets_in "an IPv6 range that the peer is in" 'TCP6-LISTEN:0,range=[::1/128]' tcp6 /

    keeps_out "an IPv6 range that the peer isn't in, and the listener stays" 'TCP6-LISTEN:0,range=[fd12::/16]'
    keeps_out "an IPv4 range takes no IPv6 peer" TCP6-LISTEN:0,range=0.0.0.0/0
fi

begin "UDP: a range drops the datagrams of another, and takes the first of its peer"
given_nothing
start relay -u UDP4-LISTEN:0,range=127.0.0.1/32,null-eof STDOUT
listens relay udp4
at="$port"
peer connect udp4 "/$at" from=127.0.0.2 send=no send=never
told 1 ''
nap 0.2
peer connect udp4 "/$at" send=yes send=
ended relay 0 yes ''
told 2 ''
finish

# --- ports

# at_last: the relay still waits; the first peer, which was bound before it, hears where it is, and is let in.
at_last() {
    lives relay
    echo "$at" >where.new
    mv where.new where
    ended relay 0 ping ''
    told 1 pong
    rm -f where
    finish
}

begin "sourceport takes the peer from that port after it refused another"
# The peer is bound before the relay starts, and connects once it is told where.
start_peer connect tcp4 /@where from=127.0.0.1 send=ping shut read
told_port 1
given pong
start relay -t10 "TCP4-LISTEN:0,sourceport=$port" STDIO
listens relay tcp4
at="$port"
peer connect tcp4 "/$at" gone
told 2 'gone\n'
at_last

if can low; then
    begin "lowport takes a peer from a port below 1024 after it refused another"
    given pong
    start relay -t10 TCP4-LISTEN:0,lowport STDIO
    listens relay tcp4
    at="$port"
    peer connect tcp4 "/$at" gone
    told 1 'gone\n'
    lives relay
    peer connect tcp4 "/$at" from=127.0.0.1/low send=ping shut read
    ended relay 0 ping ''
    told 2 pong
    finish
else
    echo "skipped lowport: no port below 1024 can be bound"
fi

begin "range and sourceport together: the right port from the wrong address is refused"
start_peer connect tcp4 /@where from=127.0.0.1 send=ping shut read
told_port 1
from="$port"
given pong
start relay -t10 "TCP4-LISTEN:0,range=127.0.0.1/32,sourceport=$from" STDIO
listens relay tcp4
at="$port"
peer connect tcp4 "/$at" "from=127.0.0.2/$from" gone
told 2 'gone\n'
at_last

# --- peers that go away before they are accepted

# While the relay is stopped nothing is accepted, and connections wait in the system's queue.
stopped_relay() {
    start relay "$@"
    listens relay "$kind"
    at="$port"
    kill -STOP "${pids[relay]}"
}

go_on() { kill -CONT "${pids[relay]}"; }

begin "a client that sent and closed before it was accepted"
kind=tcp4
given_nothing
stopped_relay -t0.2 TCP4-LISTEN:0 STDIO
peer connect tcp4 "/$at" send=ping
told 1 ''
go_on
ended relay 0 ping ''
finish

# A system may hand such a connection out with its error, or pass over it; it is never a failed accepting.
begin "a client that reset before it was accepted, with another behind it"
given_nothing
stopped_relay -t0.3 TCP4-LISTEN:0 STDIO
peer connect tcp4 "/$at" reset
told 1 ''
peer connect tcp4 "/$at" send=next
told 2 ''
go_on
await relay
if [ "$status" -eq 0 ]; then
    wrong_if "$(holds relay.out next)"
    said relay.err '' || wrong "it said $(cat relay.err)"
else
    [ "$status" -eq 1 ] || wrong "status $status"
    wrong_if "$(holds relay.out '')"
    said relay.err 'socat: read failed on the left' || wrong "it said $(cat relay.err)"
fi
finish

begin "a Unix client that sent and closed before it was accepted"
given_nothing
start relay -t0.2 UNIX-LISTEN:served STDIO
listens_at served
kill -STOP "${pids[relay]}"
peer connect unix served send=ping
told 1 ''
go_on
ended relay 0 ping ''
finish

begin "two clients in the queue: the first is served, the second isn't"
given pong
stopped_relay -t10 TCP4-LISTEN:0 STDIO
peer connect tcp4 "/$at" send=first shut read
peer connect tcp4 "/$at" gone
go_on
ended relay 0 first ''
told 1 pong
told 2 'gone\n'
finish
