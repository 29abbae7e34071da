# Streams over TCP and Unix sockets: ends that are passed on each way, late answers, what a shut option changes, and
# much at once.

# set_kind KIND: `called` is an address that connects, where `where` is given to peers; `served` one that listens.
set_kind() {
    kind="$1"
    case "$kind" in
        tcp4) served=TCP4-LISTEN:0 ;;
        tcp6) served=TCP6-LISTEN:0 ;;
        unix) served=UNIX-LISTEN:served ;;
    esac
}

# a_server STEP..: a peer that listens; `called` is the address that connects to it.
a_server() {
    if [ "$kind" = unix ]; then
        peer listen unix at=called "$@"
        called=UNIX-CONNECT:called
    else
        peer listen "$kind" "$@"
        [ "$kind" = tcp4 ] && called="TCP4:127.0.0.1:$port" || called="TCP6:[::1]:$port"
    fi
}

# a_client STEP..: a peer that connects to the relay.
a_client() {
    if [ "$kind" = unix ]; then
        peer connect unix served "$@"
    else
        peer connect "$kind" "/@${pids[relay]}" "$@"
    fi
}

half_closes() {
    begin "$kind: a server answers after it read the end"
    a_server read sleep=0.3 send=pong
    given ping
    run 0 pong '' -t10 STDIO "$called"
    told 1 ping
    finish

    begin "$kind: a client reads an answer after it passed its end"
    given_slowly '' 0.4 pong
    start relay -t10 "$served" STDIO
    a_client send=ping shut read
    ended relay 0 ping ''
    told 1 pong
    finish

    begin "$kind: a server that ends first reads what comes late"
    a_server send=pong shut read
    given_slowly '' 0.3 late
    run 0 pong '' -t10 STDIO "$called"
    told 1 late
    finish

    begin "$kind: a client that reads to the end first answers late"
    given ping
    start relay -t10 "$served" STDIO
    a_client read sleep=0.3 send=late
    ended relay 0 late ''
    told 1 ping
    finish

    begin "$kind: both ends at once, without a byte"
    a_server shut read
    given ''
    run 0 '' '' -t10 STDIO "$called"
    told 1 ''
    finish
}

one_way() {
    begin "$kind: -u from standard input, and the end is passed on"
    a_server read
    given 'one\0way'
    run 0 '' '' -u STDIN "$called"
    told 1 'one\0way'
    finish

    begin "$kind: -u to standard output"
    given_nothing
    start relay -u "$served" STDOUT
    a_client send='to you' shut
    ended relay 0 'to you' ''
    told 1 ''
    finish

    begin "$kind: -U writes to the first address"
    a_server read
    given back
    run 0 '' '' -U "$called" STDIN
    told 1 back
    finish
}

# end_seen NAME OPTION HOW: behind the relay's input with this option the peer sees `end`, or `quiet`, and its answer
# comes all the same.
end_seen() {
    begin "$kind: $1"
    a_server read=4 quiet=0.3 send=pong
    given ping
    run 0 pong '' -t10 STDIO "$called$2"
    told 1 "ping$3\n"
    finish
}

shut_options() {
    end_seen "the end is passed on while the answer is awaited" '' end
    end_seen "with shut-none no end is passed on" ,shut-none quiet
    end_seen "shut-null is as shut-none" ,shut-null quiet

    begin "$kind: with shut-close the end is passed on"
    a_server read
    given ping
    run 0 '' '' -u STDIN "$called,shut-close"
    told 1 ping
    finish
}

trips=2000
[ -z "$audits" ] || trips=50

relaying_options() {
    begin "$kind: readbytes ends the input while the peer stays"
    given_nothing
    start relay -u "$served,readbytes=4" STDOUT
    a_client send=pingpong gone
    ended relay 0 ping ''
    told 1 'gone\n'
    finish

    begin "$kind: newlines are written as crnl, and read back"
    a_server read=8 'send=c\r\nd\r\n'
    given 'a\nb\nxy'
    run 0 'c\nd\n' '' -t10 STDIO "$called,crnl"
    told 1 'a\r\nb\r\nxy'
    finish

    begin "$kind: with ignoreeof an end doesn't end it, and -T does"
    given_nothing
    start relay -T0.6 -u "$served,ignoreeof" STDOUT
    a_client send=x
    ended relay 0 x ''
    between 500 10000
    told 1 ''
    finish

    begin "$kind: $trips trips of 64 bytes, there and back"
    a_server echo
    given_nothing
    start relay -t10 "$served" "$called"
    a_client "trips=$trips"
    ended relay 0 '' ''
    told 2 ''
    told 1 ''
    finish
}

# much BYTES BLOCK: so many bytes each way at once, with slow readers at both ends. A run with a journal passes fewer.
much() {
    [ -z "$audits" ] || [ "$1" -le 100000 ] || set -- 100000 "$2"
    [ -z "$audits" ] || [ "$2" -gt 1 ] || set -- 200 "$2"
    [ -z "$audits" ] || [ "$2" -le 65536 ] || set -- "$1" 65536
    begin "$kind: $1 bytes each way at once, slow readers, blocks of $2"
    a_server "both=$1"
    start relay -t20 "-b$2" "$served" "$called"
    a_client "both=$(($1 + 1))"
    ended relay 0 '' ''
    told 1 "$(($1 + 1)) $(sum_of $(($1 + 1)))\n"
    told 2 "$1 $(sum_of "$1")\n"
    finish
}

for kind in tcp4 tcp6 unix; do
    [ "$kind" != tcp6 ] || [ -n "$ipv6" ] || continue
    set_kind "$kind"
    half_closes
    one_way
    much 20000000 8192
    [ "$kind" != tcp6 ] || continue
    shut_options
    relaying_options
done

set_kind tcp4
much 104857600 8192
much 100000 1
much 20000000 1048576

begin "nodelay, and a server by its name"
set_kind tcp4
a_server read=4 send=pong
given ping
run 0 pong '' -t10 STDIO "TCP:localhost:$port,nodelay"
told 1 ping
finish

begin "a dual address reads from one server and writes to another"
set_kind tcp4
a_server 'send=from one' read
one="$called"
a_server read
given 'to two'
run 0 'from one' '' -t10 STDIO "$one!!$called"
told 1 ''
told 2 'to two'
finish

begin "a server answers each of two pieces before the next comes"
set_kind tcp4
a_server read=1 send=A sleep=0.2 read=1 send=B
given_slowly a 0.2 b 0.3 ''
run 0 AB '' -t10 STDIO "$called"
told 1 ab
finish
