# Commands with `fork` where few descriptors can be had: peers wait at the door until all have been served.

# few COUNT TAG WORD..: a relay that may have so many descriptors open.
printf '#!/bin/sh\nulimit -n "$FEW"\nexec "$ONLY" "$@"\n' >few
chmod +x few
few() { FEW="$1" ONLY="$program" UNAUDITED=yes using=./few start "${@:2}"; }

for count in 16 20 21 40; do
    begin "$count descriptors: 30 clients that take their time are served in the end, each with a connection of its own"
    given_nothing
    UNAUDITED=yes start server -t30 TCP4-LISTEN:0,fork PIPE
    listens server tcp4
    few "$count" relay -t30 TCP4-LISTEN:0,fork "TCP4:127.0.0.1:$port"
    crowd '30 had their own' tcp4 "@${pids[relay]}" 30 late=2000
    lives relay
    finish

    begin "$count descriptors: 30 clients that take their time are served in the end, each with a program of its own"
    given_nothing
    few "$count" relay -t30 TCP4-LISTEN:0,fork EXEC:cat
    crowd '30 had their own' tcp4 "@${pids[relay]}" 30 late=2000
    lives relay
    finish
done

begin_own "20 descriptors: 30 such clients of a Unix socket are served in the end"
given_nothing
few 20 relay -t30 UNIX-LISTEN:served,fork EXEC:cat
listens_at served
crowd '30 had their own' unix served 30 late=2000
lives relay
finish

begin_own "20 descriptors: 30 senders of datagrams are served in the end"
given_nothing
few 20 relay -t0.1 UDP4-LISTEN:0,fork "SYSTEM:head -1 | tr a-z A-Z"
crowd '30 had their own' udp4 "@${pids[relay]}" 30 rounds=1
lives relay
finish

for count in 20 21; do
    begin_own "$count descriptors: 30 datagrams are served in the end, each with a connection of its own"
    given_nothing
    UNAUDITED=yes start server -t30 TCP4-LISTEN:0,fork "SYSTEM:sleep 0.2; cat"
    listens server tcp4
    few "$count" relay -t30 UDP4-RECVFROM:0,fork "TCP4:127.0.0.1:$port"
    crowd '30 had their own' udp4 "@${pids[relay]}" 30 echo=1000
    lives relay
    finish
done

begin_own "clients that wait at the door cost no processor time"
given_nothing
UNAUDITED=yes start server -t30 TCP4-LISTEN:0,fork PIPE
listens server tcp4
few 20 relay -t30 TCP4-LISTEN:0,fork "TCP4:127.0.0.1:$port"
listens relay tcp4
at="$port"
for number in {1..12}; do
    start_peer connect tcp4 "/$at" sleep=3 send=ping shut read
done
nap 1
ticks="$(ticks_of "${pids[relay]}")"
nap 1
now="$(ticks_of "${pids[relay]}")"
[ $((now - ticks)) -le 2 ] || wrong "it took $((now - ticks)) ticks while they waited"
for number in {1..12}; do
    told "$number" ping
done
finish

begin "a limit under which no session fits leaves clients at the door, and the relay alive"
given_nothing
few 10 relay -t30 TCP4-LISTEN:0,fork EXEC:cat
nap 0.3
lives relay
finish

# zombies TAG: how many children of the relay have ended and weren't asked for.
zombies() { ps -o stat= --ppid "${pids[$1]}" 2>/dev/null | grep -c '^Z'; }

# A program here closes its output, and ends a while later.
begin "programs that ended while their relay was idle are asked for at the end of the next session"
given_nothing
UNAUDITED=yes start relay -t30 TCP4-LISTEN:0,fork "SYSTEM:cat; exec >&-; sleep 0.3"
listens relay tcp4
at="$port"
peer connect tcp4 "/$at" send=ping sleep=2 shut read
nap 0.2
crowd '20 had their own' tcp4 "$at" 20 echo=100
nap 1
before="$(zombies relay)"
told 1 ping
nap 0.1
now="$(zombies relay)"
[ "$now" -eq 0 ] || wrong "$now programs are left that have ended, of $before before"
finish
