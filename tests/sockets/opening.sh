# Openings and listenings that fail, are tried again, or are bound to an address.

# A port that is bound without a listener refuses each connection, and nobody else can take it.
refusing() { peer listen tcp4 late=50; }

# --- connections that are refused

begin "a refused port on the right"
refusing
given x
run 1 '' 'socat: open failed on the right after 1 attempts' STDIO "TCP4:127.0.0.1:$port"
finish

begin "a refused port on the left"
refusing
given x
run 1 '' 'socat: open failed on the left after 1 attempts' "TCP4:127.0.0.1:$port" STDIO
finish

if [ -n "$ipv6" ]; then
    begin "a refused port by IPv6"
    peer listen tcp6 late=50
    given x
    run 1 '' 'socat: open failed on the right after 1 attempts' STDIO "TCP6:[::1]:$port"
    finish
fi

begin "a refused port with retry=2 is tried three times, an interval apart"
refusing
given x
run 1 '' 'socat: open failed on the right after 3 attempts' STDIO "TCP4:127.0.0.1:$port,retry=2,interval=0.3"
between 590 8000
finish

begin "an interval is a second where none is given"
refusing
given x
run 1 '' 'socat: open failed on the right after 2 attempts' STDIO "TCP4:127.0.0.1:$port,retry=1"
between 990 8000
finish

begin "with retry a listener that comes later is reached"
start_peer listen tcp4 late=0.5 read send=pong
told_port 1
given ping
run 0 pong '' -t10 STDIO "TCP4:127.0.0.1:$port,retry=100,interval=0.1"
between 300 8000
told 1 ping
finish

begin "with forever a listener that comes later is reached"
peer listen tcp4 late=0.5 read send=pong
given ping
run 0 pong '' -t10 "TCP4:127.0.0.1:$port,forever,interval=0.1" STDIO
between 300 8000
told 1 ping
finish

begin "forever goes on without a listener"
refusing
given x
start relay STDIO "TCP4:127.0.0.1:$port,forever,interval=0.01"
nap 0.5
lives relay
terminate relay
ended relay 143 '' ''
finish

begin "a server that can't be reached ends the client that was accepted"
refusing
start relay TCP4-LISTEN:0 "TCP4:127.0.0.1:$port"
peer connect tcp4 "/@${pids[relay]}" gone
ended relay 1 '' 'socat: open failed on the right after 1 attempts'
told 2 'gone\n'
finish

# --- hosts that aren't found

for kind in TCP TCP4 TCP6 UDP UDP4 UDP6; do
    begin "$kind to a host that isn't found"
    given x
    run 1 '' 'socat: open failed on the right after 1 attempts' STDIO "$kind:nobody.invalid:80"
    finish
done

begin "a host that isn't found is looked for again with retry"
given x
run 1 '' 'socat: open failed on the left after 2 attempts' TCP4:nobody.invalid:80,retry=1,interval=0.1 STDIO
finish

# --- ports that are taken

begin "a TCP port that is taken"
peer listen tcp4 at=0.0.0.0
given x
run 1 '' 'socat: listen failed after 1 attempts' "TCP4-LISTEN:$port" STDIO
finish

begin "a TCP port that is taken on the right, behind a left that stands"
peer listen tcp4 at=0.0.0.0
given x
run 1 '' 'socat: listen failed after 1 attempts' STDIO "TCP-L:$port,retry=0"
finish

if [ -n "$ipv6" ]; then
    begin "a TCP6 port that is taken"
    peer listen tcp6 at=::
    given x
    run 1 '' 'socat: listen failed after 1 attempts' "TCP6-LISTEN:$port" STDIO
    finish
fi

begin "a UDP port that is taken, also with reuseaddr"
peer listen udp4 at=0.0.0.0 sleep=30
given x
run 1 '' 'socat: listen failed after 1 attempts' "UDP4-LISTEN:$port,reuseaddr" STDIO
finish

begin "a port that is taken is tried as often as retry says"
peer listen tcp4 at=0.0.0.0
given x
run 1 '' 'socat: listen failed after 3 attempts' "TCP4-LISTEN:$port,retry=2,interval=0.2" STDIO
between 390 8000
finish

begin "a port that becomes free is listened at with retry"
peer listen tcp4 at=0.0.0.0 for=0.5
taken="$port"
given pong
start relay -t10 "TCP4-LISTEN:$taken,retry=100,interval=0.1" STDIO
told 1 'nobody came\n'
listens relay tcp4
[ "$port" = "$taken" ] || wrong "it listens at $port"
peer connect tcp4 "/$taken" send=ping shut read
ended relay 0 ping ''
told 2 pong
finish

begin "a port is listened at again at once, ten times"
peer listen tcp4 at=0.0.0.0 for=0.1
told 1 'nobody came\n'
taken="$port"
for round in {1..10}; do
    given pong
    start relay -t10 "TCP4-LISTEN:$taken" STDIO
    peer connect tcp4 "/@${pids[relay]}" read
    ended relay 0 '' ''
    told "$peers" pong
    [ -z "$problem" ] || break
done
finish

# --- addresses to bind to

begin "TCP-LISTEN,bind listens at that address alone"
given pong
start relay -t10 TCP-LISTEN:0,bind=127.0.0.2 STDIO
listens relay tcp4
at="$port"
start_peer connect tcp4 "127.0.0.1/$at" refused=yes
told 1 'refused\n'
peer connect tcp4 "127.0.0.2/$at" send=ping shut read
ended relay 0 ping ''
told 2 pong
finish

lets_in "TCP-LISTEN without bind listens at every address" TCP-LISTEN:0 tcp4 127.0.0.3/
[ -z "$ipv6" ] || lets_in "TCP6-LISTEN,bind=[::1]" 'TCP6-LISTEN:0,bind=[::1]' tcp6 /

begin "an address of no machine here can't be listened at"
given x
run 1 '' 'socat: listen failed after 1 attempts' TCP-LISTEN:0,bind=192.0.2.1 STDIO
finish

begin "an address of no machine here can't be sent from"
given x
run 1 '' 'socat: open failed on the right after 1 attempts' STDIO UDP4:127.0.0.1:9,bind=192.0.2.1
finish

begin "UDP,bind sends from that address"
peer listen udp4 read=1 whom
given x
run 0 '' '' -u STDIN "UDP4:127.0.0.1:$port,bind=127.0.0.2"
await peer1
read -r said <peer1.out
case "$said" in
    '<x>127.0.0.2 '*) ;;
    *) wrong "the peer said $said" ;;
esac
finish

# The port is held on another address, so nobody else takes it by chance.
begin "UDP,bind with a port sends from that port"
peer listen udp4 sleep=30
from="$port"
peer listen udp4 read=1 whom
given x
run 0 '' '' -u STDIN "UDP:127.0.0.1:$port,bind=127.0.0.2:$from"
told 2 "<x>127.0.0.2 $from\n"
finish

begin "UDP-LISTEN,bind listens at that address"
given_nothing
start relay -u UDP-LISTEN:0,bind=127.0.0.2,null-eof STDOUT
peer connect udp4 "127.0.0.2/@${pids[relay]}" send=ping send=
ended relay 0 ping ''
told 1 ''
finish

# --- one peer alone

begin "a listener takes one peer, and its port refuses the next"
given_slowly ready 1 ''
start relay -t10 TCP4-LISTEN:0 STDIO
listens relay tcp4
at="$port"
peer connect tcp4 "/$at" read=5 make=accepted wait=over shut read
until_there accepted
start_peer connect tcp4 "/$at" refused=yes
told 2 'refused\n'
: >over
ended relay 0 '' ''
told 1 ready
rm -f accepted over
finish

begin "the parts of a command line are opened in their order"
start relay TCP4-LISTEN:0 TCP4-LISTEN:0
listens relay tcp4
first="$port"
peer connect tcp4 "/$first" send=left shut read
for _ in {1..500}; do
    listens relay tcp4
    [ "$port" = "$first" ] || break
    nap 0.01
done
peer connect tcp4 "/$port" send=right shut read
ended relay 0 '' ''
told 1 right
told 2 left
finish
