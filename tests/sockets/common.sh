# What the parts share beside relays: peers, and which sockets there are here.

# What `python3` names may be a script that takes its time.
python="$(python3 -c 'import sys; print(sys.executable)')"

# Another socat, for both to talk to each other.
theirs="$(command -v socat || true)"
[ "$theirs" != "$program" ] || theirs=''

# peer_py WORD..: the script of peers.
as_python=("$python" -ES -X "pycache_prefix=$scratch/compiled" "$here/tests/sockets/peer.py")
peer_py() { "${as_python[@]}" "$@" 8<&-; }

# can KIND: whether there are such sockets here.
can() { peer_py can "$1" 2>/dev/null; }

# --- where relays listen

# listens TAG KIND: waits until the relay listens; `port` is where.
listens() {
    port="$(peer_py port "$2" "${pids[$1]}" 2>peer.err)" || wrong "$1: $(tail -1 peer.err) $(head -c 200 "$1.err")"
}

# listens_at PATH: waits until somebody listens there.
listens_at() { peer_py port unix "$1" >/dev/null 2>&1 || wrong "nobody listens at $1"; }

# --- peers

# peer listen KIND .. or peer connect KIND WHERE ..: starts a peer as tests/sockets/peer.py says, and waits until it
# stands; `port` is then its own port. It is called peer1, the next one peer2.
peer() {
    start_peer "$@"
    told_port "$peers"
}

start_peer() {
    peers=$((peers + 1))
    rm -f "peer$peers.port"
    peer_py_behind "peer$peers" "$1" "$2" "peer$peers.port" "${@:3}"
}

peer_py_behind() {
    "${as_python[@]}" "${@:2}" >"$1.out" 2>"$1.err" </dev/null 8<&- &
    pids[$1]=$!
}

# told_port NUMBER: waits for the port of this peer.
told_port() {
    local file="peer$1.port" last=$((SECONDS + limit))
    until [ -s "$file" ]; do
        if [ "$SECONDS" -gt "$last" ] || ! kill -0 "${pids[peer$1]}" 2>/dev/null; then
            [ -s "$file" ] || wrong "peer$1 doesn't stand: $(tail -1 "peer$1.err")"
            break
        fi
        nap 0.01
    done
    port=0
    [ ! -s "$file" ] || read -r port <"$file"
}

# told NUMBER TEXT: waits for the end of this peer, which took all its steps and said just this text.
told() {
    await "peer$1"
    [ "$status" -eq 0 ] || wrong "peer$1: $(tail -1 "peer$1.err")"
    wrong_if "$(holds "peer$1.out" "$2")"
}

# sum_of BYTES..: the checksum of what peers send by their lengths.
sum_of() { peer_py sum "$@"; }

# ticks_of PID: its processor time so far, in hundredths of a second.
ticks_of() {
    local fields rest
    rest="$(<"/proc/$1/stat")"
    # shellcheck disable=SC2206
    fields=(${rest##*) })
    echo "$((fields[11] + fields[12]))"
}

# --- crowds

as_crowd=("$python" -ES -X "pycache_prefix=$scratch/compiled" "$here/tests/sockets/crowd.py")

# crowd TEXT WORD..: a crowd as tests/sockets/crowd.py has it says just this line.
crowd() {
    local said
    said="$(timeout $((120 * patience)) "${as_crowd[@]}" "${@:2}" 2>crowd.err 8<&-)" || wrong "the crowd failed: $(tail -1 crowd.err)"
    [ "$said" = "$1" ] || wrong "the crowd said ${said:0:200}"
}

ipv6=''
! can tcp6 || ipv6=yes
[ -n "$ipv6" ] || echo "skipped IPv6: there is no ::1"

# lets_in NAME ADDRESS KIND HOST: a whole case: the relay that listens there takes a peer of this kind that calls at the
# host (with a slash behind it), and both hear each other.
lets_in() {
    begin "$1"
    given pong
    start relay -t10 "$2" STDIO
    peer connect "$3" "$4@${pids[relay]}" send=ping shut read
    ended relay 0 ping ''
    told 1 pong
    finish
}
