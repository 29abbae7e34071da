# Peers that reset, close or don't read, and the limits of time that end a relay.

# --- resets

reset_server() {
    begin "$1: a server that resets while nothing is written"
    peer listen "$1" sleep=0.1 reset
    given_nothing
    run 1 '' 'socat: read failed on the right' -t10 STDIO "$2:$port"
    told 1 ''
    finish
}

reset_client() {
    begin "$1: a client that resets while nothing is written"
    given_nothing
    start relay -t10 "$2:0" STDIO
    peer connect "$1" "/@${pids[relay]}" sleep=0.1 reset
    ended relay 1 '' 'socat: read failed on the left'
    told 1 ''
    finish
}

reset_server tcp4 TCP4:127.0.0.1
reset_client tcp4 TCP4-LISTEN
if [ -n "$ipv6" ]; then
    reset_server tcp6 'TCP6:[::1]'
    reset_client tcp6 TCP6-LISTEN
fi

begin "bytes that came before a reset are passed on"
peer listen tcp4 send=before wait=arrived reset
given_nothing
start relay -t10 STDIO "TCP4:127.0.0.1:$port"
until_there relay.out
: >arrived
ended relay 1 before 'socat: read failed on the right'
told 1 ''
rm -f arrived
finish

begin "a reset of the second of two peers, of which the first reads and waits"
peer listen tcp4 sleep=0.1 reset
start relay -t10 TCP4-LISTEN:0 "TCP4:127.0.0.1:$port"
peer connect tcp4 "/@${pids[relay]}" gone
ended relay 1 '' 'socat: read failed on the right'
told 1 ''
told 2 'gone\n'
finish

begin "a Unix peer that closes with bytes unread resets"
peer listen unix at=called wait=sent
given ping
start relay -t10 STDIO UNIX-CONNECT:called
nap 0.3
: >sent
ended relay 1 '' 'socat: read failed on the right'
told 1 ''
rm -f sent
finish

# --- peers that close at once

begin "a server that closes at once, and no input: the closing time ends it"
peer listen tcp4
given_nothing
run 0 '' '' -t0.4 STDIO "TCP4:127.0.0.1:$port"
between 380 8000
told 1 ''
finish

begin "the closing time is half a second where none is given"
peer listen tcp4
given_nothing
run 0 '' '' STDIO "TCP4:127.0.0.1:$port"
between 480 8000
told 1 ''
finish

begin "a client that closes at once, and no input: the closing time ends it"
given_nothing
start relay -t0.2 TCP4-LISTEN:0 STDIO
peer connect tcp4 "/@${pids[relay]}"
ended relay 0 '' ''
told 1 ''
finish

begin "with -t0 the first end is the last"
peer listen tcp4
given_nothing
run 0 '' '' -t0 STDIO "TCP4:127.0.0.1:$port"
between 0 5000
told 1 ''
finish

begin "what is written to a server that closed fails"
peer listen tcp4
given_slowly '' 0.3 a 0.3 b 0.3 c 5 ''
run 1 '' 'socat: write failed on the right' -t10 STDIO "TCP4:127.0.0.1:$port"
told 1 ''
finish

begin "what is written to a Unix peer that closed fails"
peer listen unix at=called
given_slowly '' 0.3 a 5 ''
run 1 '' 'socat: write failed on the right' -t10 STDIO UNIX-CONNECT:called
told 1 ''
finish

begin "a peer that closes at once with -u: it ends by itself"
given_nothing
start relay -u TCP4-LISTEN:0 STDOUT
peer connect tcp4 "/@${pids[relay]}"
ended relay 0 '' ''
told 1 ''
finish

# --- answers that come too late

begin "an answer after the closing time isn't awaited"
peer listen tcp4 read sleep=3 close
given ping
run 0 '' '' -t0.3 STDIO "TCP4:127.0.0.1:$port"
between 280 2900
finish

begin "traffic doesn't move the closing time"
peer listen tcp4 drip=40
given ''
start relay -t1 STDIO "TCP4:127.0.0.1:$port"
await relay
[ "$status" -eq 0 ] || wrong "status $status"
said relay.err '' || wrong "it said $(cat relay.err)"
between 950 3000
finish

begin "-T ends a relay in which nothing moves"
peer listen tcp4 gone
given_nothing
run 0 '' '' -T0.4 STDIO "TCP4:127.0.0.1:$port"
between 380 8000
told 1 'gone\n'
finish

begin "-T counts from the last byte of either direction"
peer listen tcp4 sleep=0.4 send=a sleep=0.4 send=b gone
given_nothing
run 0 ab '' -T0.8 STDIO "TCP4:127.0.0.1:$port"
between 1500 8000
told 1 'gone\n'
finish

# --- peers that don't read

begin "-T ends a relay to a peer that never reads"
peer listen tcp4 sleep=30
input=/dev/zero
run 0 '' '' -T0.5 -u STDIN "TCP4:127.0.0.1:$port"
between 480 15000
finish

begin "-t ends a relay to a peer that never reads and ended its writing"
peer listen tcp4 shut sleep=30
input=/dev/zero
run 0 '' '' -t0.5 STDIO "TCP4:127.0.0.1:$port"
between 480 15000
finish

begin "-T ends a relay to a Unix peer that never reads"
peer listen unix at=called sleep=30
input=/dev/zero
run 0 '' '' -T0.5 -u STDIN UNIX-CONNECT:called
between 480 15000
finish

begin "a peer that closes with bytes unread makes the next write fail"
peer listen tcp4 read=10 sleep=0.5 close
input=/dev/zero
run 1 '' 'socat: write failed on the right' -u STDIN "TCP4:127.0.0.1:$port"
told 1 '\0\0\0\0\0\0\0\0\0\0'
finish

begin "SIGTERM ends a relay that waits for a peer"
given_nothing
start relay TCP4-LISTEN:0 STDIO
listens relay tcp4
terminate relay
ended relay 143 '' ''
finish
