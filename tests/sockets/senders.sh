# UDP-LISTEN with fork: the datagrams of one socket, sorted by their senders, each of whom has a session.

# capitals: a program that gives each line back in capitals at once.
capitals='EXEC:sed -u y/abcdefghijklmnopqrstuvwxyz/ABCDEFGHIJKLMNOPQRSTUVWXYZ/'

begin "200 peers at once, each with datagrams and a program of its own"
given_nothing
UNAUDITED=yes start relay -t30 UDP4-LISTEN:0,fork,stop-after=200,null-eof "$capitals"
crowd '200 had their own' udp4 "@${pids[relay]}" 200 rounds=5
ended relay 0 '' ''
finish

begin "20 peers at once, with a journal"
given_nothing
start relay -t10 UDP4-LISTEN:0,fork,stop-after=20,null-eof "$capitals"
crowd '20 had their own' udp4 "@${pids[relay]}" 20 rounds=5
ended relay 0 '' ''
finish

begin "the sessions go on where stop-after has closed the door, and nobody else is served"
given_nothing
start relay -t1 UDP4-LISTEN:0,fork,stop-after=2,null-eof PIPE
listens relay udp4
at="$port"
peer connect udp4 "/$at" send=one read=1 make=one wait=go send=1 read=1 send=
until_there one
peer connect udp4 "/$at" send=two read=1 make=two wait=go send=2 read=1 send=
until_there two
peer connect udp4 "/$at" send=three quiet=0.5 make=go
told 3 'quiet\n'
told 1 '<one><1>'
told 2 '<two><2>'
ended relay 0 '' ''
rm -f one two go
finish

begin "max-children: what the next peer sends is kept until a session has ended"
given_nothing
start relay -u UDP4-LISTEN:0,fork,max-children=1,stop-after=2,null-eof STDOUT
listens relay udp4
at="$port"
peer connect udp4 "/$at" send=a make=first wait=go send=b send=
until_there first
peer connect udp4 "/$at" send=c send=d send= make=go
told 1 ''
told 2 ''
ended relay 0 abcd ''
rm -f first go
finish

begin "of a peer that isn't read 64 datagrams are kept, and others are dropped"
given_nothing
start relay -u UDP4-LISTEN:0,fork,max-children=1,stop-after=2,null-eof STDOUT
listens relay udp4
at="$port"
peer connect udp4 "/$at" send=a, make=first wait=go send=
until_there first
peer connect udp4 "/$at" burst=100 "sleep=$patience" make=go "sleep=$patience" send=
told 1 ''
told 2 ''
ended relay 0 "a,$(printf '%d,' {0..63})" ''
rm -f first go
finish

begin "of a peer that isn't read no more than 65536 bytes are kept"
given_nothing
UNAUDITED=yes start relay -u -b65536 UDP4-LISTEN:0,fork,max-children=1,stop-after=2,null-eof STDOUT
listens relay udp4
at="$port"
peer connect udp4 "/$at" send=a make=first wait=go send=
until_there first
peer connect udp4 "/$at" sizes=30000,30000,6000,5000 "sleep=$patience" make=go "sleep=$patience" send=
told 1 ''
told 2 ''
await relay
[ "$status" -eq 0 ] || wrong "status $status"
peer_py bytes 30000 30000 5000 >wanted
[ "$(wc -c <relay.out)" -eq 65001 ] || wrong "$(wc -c <relay.out) bytes came out"
[ "$(tail -c 65000 relay.out | cksum)" = "$(cksum <wanted)" ] || wrong "other bytes came out"
rm -f first go
finish

begin "an empty datagram ends its sender's session alone, and the next one begins another"
given_nothing
rm -f first second third
UNAUDITED=yes start relay -u UDP4-LISTEN:0,fork,stop-after=3,null-eof STDOUT
listens relay udp4
at="$port"
peer connect udp4 "/$at" send=a make=first wait=second send= "sleep=$patience" send=c "sleep=$patience" send= make=third
until_there first
peer connect udp4 "/$at" send=b make=second wait=third send=d send=
told 1 ''
told 2 ''
ended relay 0 abcd ''
finish

begin "without null-eof an empty datagram is ignored in a session"
given_nothing
start relay -T0.6 -u UDP4-LISTEN:0,fork,stop-after=1 STDOUT
peer connect udp4 "/@${pids[relay]}" send=a send= send=b
ended relay 0 ab ''
told 1 ''
finish

begin "a datagram that is longer than a block comes in pieces"
given_nothing
start relay -b100 -u UDP4-LISTEN:0,fork,stop-after=1,null-eof STDOUT
peer connect udp4 "/@${pids[relay]}" send="$(printf '%0250d' 7)" send=
ended relay 0 "$(printf '%0250d' 7)" ''
told 1 ''
finish

begin "datagrams keep their borders through a session each"
peer listen udp4 take=4 quiet=0.2
start relay -b65536 -u UDP4-LISTEN:0,fork,stop-after=1,null-eof "UDP4:127.0.0.1:$port"
peer connect udp4 "/@${pids[relay]}" sizes=1,8192,9000,30000 send=
ended relay 0 '' ''
told 1 "1 8192 9000 30000 $(sum_of 1 8192 9000 30000)\nquiet\n"
finish

begin "with a range a refused peer's datagrams are dropped"
given_nothing
start relay -u UDP4-LISTEN:0,fork,stop-after=1,range=127.0.0.1/32,null-eof STDOUT
listens relay udp4
at="$port"
peer connect udp4 "/$at" from=127.0.0.2 send=no send=never
told 1 ''
nap 0.2
peer connect udp4 "/$at" send=yes send=
ended relay 0 yes ''
finish

if [ -n "$ipv6" ]; then
    begin "peers over IPv6"
    given_nothing
    start relay -t1 UDP6-LISTEN:0,fork,stop-after=2,null-eof PIPE
    listens relay udp6
    at="$port"
    peer connect udp6 "/$at" send=one read=1 send=
    peer connect udp6 "/$at" send=two read=1 send=
    ended relay 0 '' ''
    told 1 '<one>'
    told 2 '<two>'
    finish
fi

# socat(1) has a process for each sender, and so neither a watch nor a table of them.
if [ -n "$own" ]; then
    while IFS=$'\t' read -r title fault; do
        begin "$title"
        wrong_if "$fault"
        finish
    done < <(UNAUDITED=yes "$python" -ES -X "pycache_prefix=$scratch/compiled" "$here/tests/sockets/door.py" "$program" 2>&1)
fi
