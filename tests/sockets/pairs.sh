# Each kind as server and as client: both sides are relays, of this program or of another socat.

# The words of UDP by which both ends pass: an empty datagram.
ends=',null-eof,shut-null'

# serve WHO WORD..: starts the server, which is this program or the other socat.
serve() {
    local using=''
    [ "$1" = own ] || using="$theirs"
    given 'from the server'
    start server -t10 "${@:2}"
}

call() {
    local using=''
    [ "$1" = own ] || using="$theirs"
    printf 'from the client' >in_client
    input=in_client
    start client -t10 "${@:2}"
}

both_got_all() {
    ended client 0 'from the server' ''
    ended server 0 'from the client' ''
    finish
}

# ip_pair SERVER CLIENT KIND HOST LISTENING CONNECTING MORE: both texts pass.
ip_pair() {
    begin "$5 of $(whose "$1"), called by $6 of $(whose "$2")"
    serve "$1" "$5:0$7" STDIO
    listens server "$3"
    call "$2" STDIO "$6:$4:$port$7"
    both_got_all
}

unix_pair() {
    begin "$3 of $(whose "$1"), called by $4 of $(whose "$2")"
    serve "$1" "$3:pair" STDIO
    listens_at pair
    call "$2" STDIO "$4:./pair"
    both_got_all
}

whose() {
    if [ "$1" = own ]; then
        echo "the program"
    else
        echo "another socat"
    fi
}

# ip_kinds SERVER CLIENT: every kind of TCP and UDP.
ip_kinds() {
    ip_pair "$@" tcp4 localhost TCP-LISTEN TCP ''
    ip_pair "$@" tcp4 127.0.0.1 TCP-L TCP-CONNECT ''
    ip_pair "$@" tcp4 127.0.0.1 TCP4-LISTEN TCP4 ''
    ip_pair "$@" tcp4 127.0.0.1 TCP4-L TCP4-CONNECT ''
    ip_pair "$@" udp4 localhost UDP-LISTEN UDP "$ends"
    ip_pair "$@" udp4 127.0.0.1 UDP-L UDP "$ends"
    ip_pair "$@" udp4 127.0.0.1 UDP4-LISTEN UDP4 "$ends"
    ip_pair "$@" udp4 127.0.0.1 UDP4-L UDP4 "$ends"
    [ -n "$ipv6" ] || return
    ip_pair "$@" tcp6 '[::1]' TCP6-LISTEN TCP6 ''
    ip_pair "$@" tcp6 '[::1]' TCP6-L TCP6-CONNECT ''
    ip_pair "$@" tcp6 '[::1]' TCP6-LISTEN TCP ''
    ip_pair "$@" udp6 '[::1]' UDP6-LISTEN UDP6 "$ends"
    ip_pair "$@" udp6 '[::1]' UDP6-L UDP "$ends"
}

# unix_kinds SERVER CLIENT: every kind of Unix sockets.
unix_kinds() {
    unix_pair "$@" UNIX-LISTEN UNIX-CONNECT
    unix_pair "$@" UNIX-L UNIX-CONNECT
    unix_pair "$@" UNIX-LISTEN GOPEN
}

ip_kinds own own
unix_kinds own own
if [ -n "$theirs" ]; then
    ip_kinds own theirs
    unix_kinds own theirs
    ip_kinds theirs own
    unix_kinds theirs own
else
    echo "skipped the pairs with another socat: none is installed"
fi

begin "a name with a slash is a Unix socket where one listens"
serve own UNIX-LISTEN:pair STDIO
listens_at pair
call own STDIO ./pair
both_got_all

begin "keywords in small letters"
serve own tcp4-listen:0 stdio
listens server tcp4
call own stdio "tcp4:127.0.0.1:$port"
both_got_all
