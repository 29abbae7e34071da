# Names of hosts: a lookup that isn't answered holds up nothing but its own opening. The relays see a resolver of the
# test's own, which takes a mount of their own (unshare(1)).

names="$scratch/names"
mkdir -p "$names"
printf 'nameserver 127.0.0.77\noptions timeout:2 attempts:5\n' >"$names/resolv.conf"
printf 'hosts: files dns\n' >"$names/nsswitch.conf"
cat >"$names/relay" <<END
#!/bin/sh
exec unshare -m sh -c '
    mount --bind "$names/resolv.conf" /etc/resolv.conf &&
    mount --bind "$names/nsswitch.conf" /etc/nsswitch.conf &&
    exec "$program" "\$@"' sh "\$@"
END
chmod +x "$names/relay"

# resolving NAME: a case whose relays ask the test's own resolver; resolving_own NAME one of this program's alone.
resolving() {
    begin "$1"
    resolve
}

resolving_own() {
    begin_own "$1"
    resolve
}

resolve() {
    rm -f "$names/serving" "$names/dead"
    behind resolver "${as_names[@]}" serve 127.0.0.77 "$names" 2>"$names/resolver.err"
    local last=$((SECONDS + limit))
    until [ -e "$names/serving" ] || [ "$SECONDS" -gt "$last" ]; do
        nap 0.01
    done
    [ -e "$names/serving" ] || wrong "the resolver doesn't stand: $(tail -1 "$names/resolver.err")"
    using="$names/relay"
}

as_names=("$python" -ES -X "pycache_prefix=$scratch/compiled" "$here/tests/sockets/names.py")

# resolved: the end of such a case.
resolved() {
    using=''
    finish
}

# echoing: a server that gives back what it gets, at `port`.
echoing() {
    UNAUDITED=yes using='' start server -t30 TCP4-LISTEN:0,fork PIPE
    listens server tcp4
}

if unshare -m mount --bind "$names/resolv.conf" /etc/resolv.conf 2>/dev/null; then
    resolving "200 sessions go on while the lookups of ten others aren't answered"
    given_nothing
    echoing
    UNAUDITED=yes start relay -t10 TCP4-LISTEN:0,fork "TCP4:peer.test:$port"
    listens relay tcp4
    said="$(timeout $((60 * patience)) "${as_names[@]}" held "$port" 200 10 "$names" 2>names.err)" || wrong "$(tail -1 names.err)"
    [ "$said" = '200 went on, 10 were served' ] || wrong "they said ${said:0:100}"
    lives relay
    resolved

    resolving "ten clients at once behind a name that is answered late are all served"
    given_nothing
    echoing
    UNAUDITED=yes start relay -t10 TCP4-LISTEN:0,fork "TCP4:late.test:$port"
    crowd '10 had their own' tcp4 "@${pids[relay]}" 10 echo=1000
    took=$(((${EPOCHREALTIME/[.,]/} - begun) / 1000))
    between 900 9000
    lives relay
    resolved

    resolving "60 openings that wait for one name take one thread more at most"
    given_nothing
    UNAUDITED=yes start relay TCP4-LISTEN:0,fork TCP4:never.test:9
    listens relay tcp4
    before="$(ls "/proc/${pids[relay]}/task" | wc -l)"
    crowd '60 came' tcp4 "@${pids[relay]}" 60 leave
    nap 0.5
    now="$(ls "/proc/${pids[relay]}/task" | wc -l)"
    [ "$now" -le $((before + 1)) ] || wrong "it has $now threads, and had $before"
    lives relay
    resolved

    for kind in TCP4 UDP4 UDP4-SENDTO; do
        resolving_own "SIGTERM while $kind waits for a lookup"
        given_nothing
        UNAUDITED=yes start relay STDIO "$kind:never.test:9"
        nap 0.5
        lives relay
        terminate relay
        ended relay 143 '' ''
        between 400 2000
        resolved
    done

    for kind in TCP4 UDP4 UDP4-SENDTO; do
        resolving "$kind to a name without an address fails"
        given x
        run 1 '' 'socat: open failed on the right after 1 attempts' STDIO "${kind/4/6}:peer.test:9"
        between 0 1900
        resolved
    done

    resolving_own "a name that isn't answered fails in the end, and is tried again"
    given x
    printf 'nameserver 127.0.0.77\noptions timeout:1 attempts:1\n' >"$names/resolv.conf"
    run 1 '' 'socat: open failed on the right after 2 attempts' STDIO TCP4:never.test:9,retry=1,interval=0.1
    printf 'nameserver 127.0.0.77\noptions timeout:2 attempts:5\n' >"$names/resolv.conf"
    between 1900 8000
    resolved

    resolving "a name of /etc/hosts needs no resolver"
    echoing
    : >"$names/dead"
    given ping
    UNAUDITED=yes run 0 ping '' -t10 STDIO "TCP4:localhost:$port"
    between 0 1900
    resolved

    for kind in "SOCKS4A:late.test:127.0.0.1:80,socksport" "PROXY:late.test:127.0.0.1:80,proxyport"; do
        resolving "the server of ${kind%%:*} by a name that is answered late"
        given x
        peer listen tcp4 late=50
        run 1 '' 'socat: open failed on the right after 1 attempts' STDIO "$kind=$port"
        between 900 5000
        resolved
    done

    resolving "SOCKS4: the host by a name that is answered late"
    given ping
    peer listen tcp4 read=11 'send=\x00\x5a\x00\x00\x00\x00\x00\x00' send=pong shut read
    run 0 pong '' -t10 STDIO "SOCKS4:127.0.0.1:late.test:80,socksport=$port,socksuser=me"
    told 1 '\x04\x01\x00\x50\x7f\x00\x00\x01me\x00ping'
    between 900 5000
    resolved
else
    echo "skipped names: there are no mounts of a test's own"
fi

# traced WORD..: runs the relay; `threads` is how many it started, and `files` whether it read the resolver's.
traced() {
    using="$names/traced" run_to_end "$@"
    threads="$(grep -cE 'clone3?\(' names.trace)"
    files="$(grep -c 'resolv\.conf' names.trace)"
}

if strace -o /dev/null true 2>/dev/null; then
    printf '#!/bin/sh\nexec strace -f -o names.trace -e trace=open,openat,clone,clone3 "%s" "$@"\n' "$program" >"$names/traced"
    chmod +x "$names/traced"
    for kind in TCP4:127.0.0.1 TCP:127.0.0.1 UDP4-SENDTO:127.0.0.1; do
        begin "$kind takes no lookup and no thread"
        case "$kind" in
            UDP*) peer listen udp4 late=50 ;;
            *) peer listen tcp4 read ;;
        esac
        given ''
        traced -u OPEN:/dev/null OPEN:/dev/null
        usual="$threads"
        traced -u OPEN:/dev/null "$kind:$port"
        [ "$threads" -eq "$usual" ] || wrong "it started $threads threads, and $usual without a host"
        [ "$files" -eq 0 ] || wrong "it read the resolver's file"
        finish
    done
else
    echo "skipped traces: there is no strace"
fi
