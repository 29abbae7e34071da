# The files of Unix sockets: who makes and removes them, and what stands in the way.

# stale FILE: a socket at which nobody listens any more.
stale() {
    rm -f "$1"
    peer listen unix "at=$1" for=0.01
    told "$peers" 'nobody came\n'
    [ -S "$1" ] || wrong "there is no stale $1"
}

there() { [ -S "$1" ] || wrong "there is no socket $1"; }
gone() { [ ! -e "$1" ] || wrong "$1 is still there"; }

# serves ADDRESS: the relay listens at `socket`, and serves one peer.
serves() {
    given pong
    start relay -t10 "$1" STDIO
    listens_at socket
    there socket
    peer connect unix socket send=ping shut read
    ended relay 0 ping ''
    told "$peers" pong
}

# --- a listener's file

begin "a listener makes its file, and removes it at the end"
serves UNIX-LISTEN:socket
gone socket
finish

begin "with unlink-close=0 the file stays"
serves UNIX-LISTEN:socket,unlink-close=0
there socket
finish

begin "a stale file is in the way, and stays"
stale socket
given x
run 1 '' 'socat: listen failed after 1 attempts' UNIX-LISTEN:socket STDIO
there socket
finish

begin "with unlink-early a stale file is removed first"
stale socket
serves UNIX-LISTEN:socket,unlink-early
gone socket
finish

begin "with unlink-early and unlink-close=0 twice over"
stale socket
serves UNIX-L:socket,unlink-early,unlink-close=0
there socket
serves UNIX-L:socket,unlink-early,unlink-close=0
there socket
finish

begin "a plain file in the way stays as it is"
printf 'a text' >socket
given x
run 1 '' 'socat: listen failed after 1 attempts' UNIX-LISTEN:socket STDIO
wrong_if "$(holds socket 'a text')"
finish

begin "with unlink-early a plain file is removed too"
printf 'a text' >socket
serves UNIX-LISTEN:socket,unlink-early
gone socket
finish

begin "a listener whose file is in the way tries again until it is gone"
stale socket
given pong
start relay -t10 UNIX-LISTEN:socket,retry=100,interval=0.1 STDIO
nap 0.3
lives relay
rm -f socket
peer connect unix socket send=ping shut read
ended relay 0 ping ''
told 2 pong
gone socket
finish

begin "the file goes also where the right place can't be opened"
peer listen tcp4 late=50
start relay UNIX-LISTEN:socket "TCP4:127.0.0.1:$port"
peer connect unix socket gone
ended relay 1 '' 'socat: open failed on the right after 1 attempts'
told 2 'gone\n'
gone socket
finish

begin "the file goes also where the closing time ends the relay"
given_nothing
start relay -t0.1 UNIX-LISTEN:socket STDIO
peer connect unix socket shut gone
ended relay 0 '' ''
told 1 'gone\n'
gone socket
finish

begin "a folder that isn't there"
given x
run 1 '' 'socat: listen failed after 1 attempts' UNIX-LISTEN:none/socket STDIO
finish

long="$(printf 'n%.0s' {1..120})"
begin "a name too long for a socket can't be listened at"
given x
run 1 '' 'socat: listen failed after 1 attempts' "UNIX-LISTEN:$long" STDIO
gone "$long"
finish

begin "a file name with a colon and a comma, quoted"
given pong
start relay -t10 'UNIX-LISTEN:a\:b\,c' STDIO
listens_at a:b,c
peer connect unix a:b,c send=ping shut read
ended relay 0 ping ''
told 1 pong
gone a:b,c
finish

# --- a file to connect to

begin "nothing to connect to"
given x
run 1 '' 'socat: open failed on the right after 1 attempts' STDIO UNIX-CONNECT:socket
gone socket
finish

begin "a stale file to connect to, which stays"
stale socket
given x
run 1 '' 'socat: open failed on the left after 1 attempts' UNIX-CONNECT:socket STDIO
there socket
finish

begin "a plain file to connect to, which stays"
printf 'a text' >plain
given x
run 1 '' 'socat: open failed on the right after 1 attempts' STDIO UNIX-CONNECT:plain
wrong_if "$(holds plain 'a text')"
finish

begin "a name too long for a socket can't be connected to"
given x
run 1 '' 'socat: open failed on the right after 1 attempts' STDIO "UNIX-CONNECT:$long"
finish

begin "with retry a listener that comes later is reached"
start_peer listen unix at=socket late=0.5 read send=pong
given ping
run 0 pong '' -t10 STDIO UNIX-CONNECT:socket,retry=100,interval=0.1
between 250 8000
told 1 ping
finish

begin "who connects leaves the file"
peer listen unix at=socket read send=pong
given ping
run 0 pong '' -t10 STDIO UNIX-CONNECT:socket
told 1 ping
there socket
finish

begin "with unlink-close who connects removes the file at the end"
peer listen unix at=socket read send=pong
given ping
run 0 pong '' -t10 STDIO UNIX-CONNECT:socket,unlink-close
told 1 ping
gone socket
finish

begin "with unlink-early who connects finds nothing"
peer listen unix at=socket
given x
run 1 '' 'socat: open failed on the right after 1 attempts' STDIO UNIX-CONNECT:socket,unlink-early
gone socket
finish

# --- GOPEN

begin "GOPEN connects to a Unix socket, and reads its answer"
peer listen unix at=socket read send=pong
given ping
run 0 pong '' -t10 STDIO GOPEN:socket
told 1 ping
there socket
finish

begin "GOPEN on a stale file fails"
stale socket
given x
run 1 '' 'socat: open failed on the right after 1 attempts' STDIO GOPEN:socket
there socket
finish

begin "GOPEN that only reads from a Unix socket"
peer listen unix at=socket send=text
given_nothing
run 0 text '' -u GOPEN:socket STDOUT
told 1 ''
finish

begin "GOPEN that only writes to a Unix socket"
peer listen unix at=socket read
given text
run 0 '' '' -u STDIN ./socket
told 1 text
finish
