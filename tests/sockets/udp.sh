# Datagrams: their borders from one UDP address to another, lengths from 0 to 65,507 bytes, empty ones, and whom they
# come from and go to.

# through WORD..: a relay of datagrams from a port where it listens (`at`) to a peer that listens already. The words
# stand behind the two addresses' own options: BLOCK MORE_LEFT MORE_RIGHT.
through() {
    given_nothing
    start relay "-b$1" -u "UDP$ip-LISTEN:0,null-eof$2" "UDP$ip:$host:$port$3"
    listens relay "udp$ip"
    at="$port"
}

# keeps SIZES NUMBER TAKEN BLOCK [MORE_LEFT [MORE_RIGHT]]: datagrams of these sizes come out as NUMBER datagrams
# of the sizes TAKEN, with the same bytes. The empty one at the end ends the relay.
keeps() {
    peer listen "udp$ip" "take=$2" quiet=0.2
    through "$4" "${5:-}" "${6:-}"
    peer connect "udp$ip" "/$at" "sizes=$1" send=
    ended relay 0 '' ''
    # shellcheck disable=SC2086
    told 1 "$3 $(sum_of ${1//,/ })\nquiet\n"
}

set_ip() {
    ip="$1"
    host=127.0.0.1
    [ "$ip" = 4 ] || host='[::1]'
}

for ip in 4 6; do
    [ "$ip" = 4 ] || [ -n "$ipv6" ] || continue
    set_ip "$ip"
    begin "UDP$ip: datagrams of 1, 8192, 9000 and 65507 bytes keep their borders in blocks of 65536"
    keeps 1,8192,9000,65507 4 '1 8192 9000 65507' 65536
    finish

    begin "UDP$ip: in blocks of 8192 bytes a longer datagram goes out in pieces"
    keeps 1,8192,9000,3,65507 13 \
        '1 8192 8192 808 3 8192 8192 8192 8192 8192 8192 8192 8163' 8192
    finish
done
set_ip 4

begin "datagrams around the length of a block"
keeps 99,100,101,200,201 9 '99 100 100 1 100 100 100 100 1' 100
finish

begin "a datagram in pieces of 32753 bytes where newlines are written as crnl"
keeps x32753,x32754,x65507 6 '32753 32753 1 32753 32753 1' 65536 '' ,crnl
finish

# passes TAKEN BLOCK MORE_LEFT MORE_RIGHT STEP..: the datagrams that a peer sends come out as TAKEN.
passes() {
    local count="${1//[^<]/}"
    peer listen udp4 "read=${#count}" quiet=0.2
    through "$2" "$3" "$4"
    peer connect udp4 "/$at" "${@:5}"
    ended relay 0 '' ''
    told 1 "$1quiet\n"
}

begin "newlines grow inside their datagram"
passes '<a\r\n><bc>' 8192 '' ,crnl 'send=a\n' send=bc send=
finish

begin "a datagram of which nothing is left isn't sent"
passes '<a>' 8192 ,crnl '' 'send=\r' send=a send=
finish

begin "a datagram of two blocks goes out as two"
passes '<abcd><efgh>' 4 '' '' send=abcdefgh send=
finish

begin "readbytes cuts inside a datagram"
passes '<abc><de>' 8192 ,readbytes=5 '' send=abc send=defg
finish

begin "the escape byte cuts inside a datagram"
passes '<abc><d>' 8192 ,escape=33 '' send=abc 'send=d!e'
finish

begin "with shut-null the end goes out as an empty datagram"
passes '<abc><>' 8192 '' ,shut-null send=abc send=
finish

for option in shut-down shut-close shut-none; do
    begin "with $option no datagram goes out for the end"
    passes '<abc>' 8192 '' ",$option" send=abc send=
    finish
done

begin "a burst of 100 datagrams keeps its order and borders"
passes "$(printf '<%d,>' {0..99})" 8192 '' '' burst=100 send=
finish

begin "there and back through a relay, datagrams keep their borders"
peer listen udp4 echo
start relay -t10 -b65536 UDP4-LISTEN:0,null-eof,shut-null "UDP4:127.0.0.1:$port,null-eof,shut-null"
peer connect udp4 "/@${pids[relay]}" sizes=1,9000,65507 send= take=3 read=1
ended relay 0 '' ''
told 1 ''
told 2 "1 9000 65507 $(sum_of 1 9000 65507)\n<>"
finish

# --- empty datagrams

begin "without null-eof an empty datagram is ignored"
given_nothing
start relay -T0.6 -u UDP4-LISTEN:0 STDOUT
peer connect udp4 "/@${pids[relay]}" send=a send= send=b
ended relay 0 ab ''
between 580 10000
told 1 ''
finish

begin "without null-eof an empty datagram isn't passed on"
peer listen udp4 read=2 quiet=0.2
start relay -T0.6 -u UDP4-LISTEN:0 "UDP4:127.0.0.1:$port"
peer connect udp4 "/@${pids[relay]}" send=a send= send=b
ended relay 0 '' ''
told 1 '<a><b>quiet\n'
finish

begin "with null-eof an empty datagram is the end"
given_nothing
start relay -u UDP4-LISTEN:0,null-eof STDOUT
peer connect udp4 "/@${pids[relay]}" send=a send= send=b
ended relay 0 a ''
finish

begin "an empty first datagram makes its sender the peer"
given_nothing
start relay -u UDP4-LISTEN:0,null-eof STDOUT
peer connect udp4 "/@${pids[relay]}" send=
ended relay 0 '' ''
told 1 ''
finish

begin "an empty first datagram without null-eof, and what comes next"
given_nothing
start relay -T0.6 -u UDP4-LISTEN:0 STDOUT
peer connect udp4 "/@${pids[relay]}" send= send=a
ended relay 0 a ''
told 1 ''
finish

# --- to and from streams

begin "a datagram of 65507 bytes comes to standard output whole, in blocks of 8192"
given_nothing
start relay -u UDP4-LISTEN:0,null-eof STDOUT
peer connect udp4 "/@${pids[relay]}" sizes=65507 send=
await relay
[ "$status" -eq 0 ] || wrong "status $status"
peer_py bytes 65507 >wanted
wrong_if "$(same relay.out wanted)"
told 1 ''
finish

begin "a long input goes out in datagrams of at most 65507 bytes"
long=200000
block=1048576
# A journal keeps the room of each read.
[ -z "$audits" ] || long=70000 block=65536
peer listen udp4 "gather=$long" quiet=0.2
peer_py bytes "$long" >long
input=long
run 0 '' '' "-b$block" -u STDIN "UDP4:127.0.0.1:$port"
told 1 "$long $(sum_of "$long")\nquiet\n"
finish

# --- whom they come from and go to

begin "a listener drops 100 datagrams of others, and reads its peer's behind them"
given_nothing
start relay -u UDP4-LISTEN:0,null-eof STDOUT
listens relay udp4
at="$port"
peer connect udp4 "/$at" send=a wait=go send=b send=
until_there relay.out
kill -STOP "${pids[relay]}"
peer connect udp4 "/$at" unwanted=100
told 2 ''
: >go
told 1 ''
kill -CONT "${pids[relay]}"
ended relay 0 ab ''
rm -f go
finish

begin "a listener answers its first peer, also after another one wrote"
given_slowly '' 0.6 pong
start relay -t5 UDP4-LISTEN:0,null-eof,shut-null STDIO
listens relay udp4
at="$port"
peer connect udp4 "/$at" send=ping read=2 send=
peer connect udp4 "/$at" unwanted=1 quiet=1
ended relay 0 ping ''
told 1 '<pong><>'
told 2 'quiet\n'
finish

begin "a connected socket takes datagrams of its peer alone"
peer listen udp4 sleep=30
from="$port"
peer listen udp4 read=1 make=ready wait=go send=yes send=
given hello
start relay -t10 STDIO "UDP4:127.0.0.1:$port,bind=127.0.0.2:$from,null-eof"
until_there ready
peer connect udp4 "127.0.0.2/$from" send=no
told 3 ''
: >go
ended relay 0 yes ''
told 2 '<hello>'
rm -f ready go
finish

# --- nobody there

# The port is taken on 127.0.0.1, and so nobody has it on 127.0.0.9.
begin "where nobody has the port, the read behind a datagram fails"
peer listen udp4 sleep=30
given_slowly x 3 ''
run 1 '' 'socat: read failed on the right' -t10 STDIO "UDP4:127.0.0.9:$port"
finish

begin "where nobody has the port, the second of two datagrams fails"
peer listen udp4 sleep=30
given_slowly x 1 y 3 ''
run 1 '' 'socat: write failed on the right' -u STDIN "UDP4:127.0.0.9:$port"
finish

# --- one socket for whoever sends

# free_port: `port` is one that was free just now.
free_port() {
    peer listen udp4
    told "$peers" ''
}

begin "UDP-SENDTO: what is sent, and what its partner answers"
given ping
peer listen udp4 read=1 send=pong
run 0 pong '' -t1 STDIO "UDP4-SENDTO:127.0.0.1:$port"
told 1 '<ping>'
finish

begin "UDP-SENDTO drops what a stranger sends"
given ping
free_port
own_port="$port"
peer listen udp4 read=1 wait=called sleep=0.1 send=pong
start relay -t5 STDIO "UDP4-SENDTO:127.0.0.1:$port,bind=127.0.0.1:$own_port,null-eof"
peer connect udp4 "/@${pids[relay]}" send=stranger send= make=called
told 3 ''
told 2 '<ping>'
await relay
wrong_if "$(holds relay.out pong)"
finish

begin "UDP-RECV: what two senders send comes out together"
given_nothing
free_port
UNAUDITED=yes start relay -T1 -u "UDP4-RECV:$port" STDOUT
listens relay udp4
peer connect udp4 "/$port" send=one
told 2 ''
peer connect udp4 "/@${pids[relay]}" send=two
ended relay 0 onetwo ''
finish

begin "UDP-RECV: with null-eof an empty datagram is the end"
given_nothing
free_port
start relay -u "UDP4-RECV:$port,null-eof" STDOUT
listens relay udp4
peer connect udp4 "/$port" send=one send= send=two
ended relay 0 one ''
finish

begin "UDP-RECVFROM: one datagram, and the answer to its sender"
given_nothing
start relay -t1 UDP4-RECVFROM:0 PIPE
peer connect udp4 "/@${pids[relay]}" send=ping read=1
ended relay 0 '' ''
told 1 '<ping>'
finish

begin "UDP-RECVFROM: the end comes behind the first datagram"
given_nothing
start relay -u UDP4-RECVFROM:0 STDOUT
peer connect udp4 "/@${pids[relay]}" send=first send=second
ended relay 0 first ''
finish

begin "UDP-RECVFROM: a datagram that is longer than a block comes whole"
given_nothing
start relay -b100 -u UDP4-RECVFROM:0 STDOUT
peer connect udp4 "/@${pids[relay]}" send="$(printf '%0250d' 7)"
ended relay 0 "$(printf '%0250d' 7)" ''
finish
