# Connections through SOCKS4, SOCKS4A and HTTP proxies, which are peers that say what they were asked for.

granted='\x00\x5a\x00\x00\x00\x00\x00\x00'
not_opened='socat: open failed on the right after 1 attempts'

# socks NAME KIND HOST REQUEST REPLY STEP..: the relay asks a SOCKS server for port 80 of this host, in the name of me. The
# server reads so many bytes of the request as it has, sends this reply, and takes its steps. `asked` is the request.
socks() {
    asked="$4"
    begin "$1"
    given ping
    peer listen tcp4 "read=$(printf '%b' "$asked" | wc -c)" "send=$5" "${@:6}"
    address="$2:127.0.0.1:$3:80,socksport=$port,socksuser=me"
}

named='\x04\x01\x00\x50\x00\x00\x00\x01me\x00host.example\x00'
literal='\x04\x01\x00\x50\x7f\x00\x00\x01me\x00'

socks "SOCKS4A: the request, and bytes both ways behind it" SOCKS4A host.example "$named" "$granted" send=pong shut read
run 0 pong '' -t10 STDIO "$address"
told 1 "${asked}ping"
finish

socks "SOCKS4: the address of the host is looked up here" SOCKS4 127.0.0.1 "$literal" "$granted" send=pong shut read
run 0 pong '' -t10 STDIO "$address"
told 1 "${asked}ping"
finish

socks "SOCKS4A at the left, one way" SOCKS4A host.example "$named" "${granted}much more" shut
run 0 'much more' '' -u "$address" STDOUT
told 1 "$asked"
finish

socks "SOCKS4A: bytes in one packet with the reply are the connection's" SOCKS4A host.example "$named" "${granted}hi" shut read
run 0 hi '' -t10 STDIO "$address"
told 1 "${asked}ping"
finish

socks "SOCKS4A: a reply that comes a byte at a time" SOCKS4A host.example "$named" '\x00' sleep=0.1 'send=\x5a\x01' \
    sleep=0.1 'send=\x02\x03\x04' sleep=0.1 'send=\x05' sleep=0.1 'send=\x06pong' shut read
run 0 pong '' -t10 STDIO "$address"
told 1 "${asked}ping"
finish

begin "SOCKS4A: a reply that is late by two seconds, while nothing goes through"
given ping
peer listen tcp4 read=24 quiet=2 "send=$granted" send=pong shut read
run 0 pong '' -t10 STDIO "SOCKS4A:127.0.0.1:host.example:80,socksport=$port,socksuser=me"
told 1 "${named}quiet\nping"
between 1900 8000
finish

for code in 5b 5c 5d 00 ff; do
    socks "SOCKS4A: denied with $code" SOCKS4A host.example "$named" "\\x00\\x$code\\x00\\x00\\x00\\x00\\x00\\x00" read
    run 1 '' "$not_opened" STDIO "$address"
    told 1 "$asked"
    finish
done

socks "SOCKS4A: a reply that is none" SOCKS4A host.example "$named" 'HTTP/1.0 400 Bad' read
run 1 '' "$not_opened" STDIO "$address"
finish

socks "SOCKS4A: a server that closes after seven bytes" SOCKS4A host.example "$named" '\x00\x5a\x00\x00\x00\x00\x00'
run 1 '' "$not_opened" STDIO "$address"
told 1 "$asked"
finish

socks "SOCKS4A: a server that closes at once" SOCKS4A host.example "$named" ''
run 1 '' "$not_opened" STDIO "$address"
finish

begin "SOCKS4A: denied once and then granted, with retry"
given ping
peer listen tcp4 times=2 read=24 "wait=in" 'send=\x00\x5b\x00\x00\x00\x00\x00\x00' gone
run 1 '' 'socat: open failed on the right after 2 attempts' STDIO \
    "SOCKS4A:127.0.0.1:host.example:80,socksport=$port,socksuser=me,retry=1,interval=0.1"
told 1 "${named}gone\n${named}gone\n"
finish

begin "SOCKS4A: nobody listens at the server's port"
given ping
peer listen tcp4 for=0.01
told 1 'nobody came\n'
run 1 '' "$not_opened" STDIO "SOCKS4A:127.0.0.1:host.example:80,socksport=$port"
finish

begin "SOCKS4: a host that isn't found"
given ping
run 1 '' "$not_opened" STDIO "SOCKS4:127.0.0.1:no-such-host.invalid:80,socksport=1"
finish

# proxy NAME REPLY STEP..: the relay asks an HTTP proxy for port 80 of host.example. The proxy reads the request, sends
# this reply, and takes its steps.
connects='CONNECT host.example:80 HTTP/1.0\r\n\r\n'
proxy() {
    begin "$1"
    given ping
    peer listen tcp4 "read=$(printf '%b' "$connects" | wc -c)" "send=$2" "${@:3}"
    address="PROXY:127.0.0.1:host.example:80,proxyport=$port"
}

# fields COUNT: so many fields of a head.
fields() { printf 'X-Field: value\\r\\n%.0s' $(seq "$1"); }

ok='HTTP/1.0 200 Connection established\r\n'

proxy "PROXY: the request, and bytes both ways behind it" "$ok\r\n" send=pong shut read
run 0 pong '' -t10 STDIO "$address"
told 1 "${connects}ping"
finish

proxy "PROXY: bytes in one packet with the head are the connection's" "$ok\r\nhi" shut read
run 0 hi '' -t10 STDIO "$address"
told 1 "${connects}ping"
finish

proxy "PROXY: a head in pieces, with bare line feeds" 'HTTP/1.1 2' sleep=0.1 'send=04 Fine\nVia: me\n' sleep=0.1 'send=\n' \
    send=pong shut read
run 0 pong '' -t10 STDIO "$address"
told 1 "${connects}ping"
finish

for status in 199 300 404 407 502; do
    proxy "PROXY: denied with $status" "HTTP/1.1 $status No\r\n\r\n" read
    run 1 '' "$not_opened" STDIO "$address"
    told 1 "$connects"
    finish
done

proxy "PROXY: a head that is none" 'SSH-2.0-Server\r\n\r\n' read
run 1 '' "$not_opened" STDIO "$address"
finish

proxy "PROXY: a head of 64 fields" "$ok$(fields 64)\r\n" send=pong shut read
run 0 pong '' -t10 STDIO "$address"
told 1 "${connects}ping"
finish

proxy "PROXY: a head of 65 fields" "$ok$(fields 65)\r\n" read
run 1 '' "$not_opened" STDIO "$address"
finish

# long LENGTH: a head of so many bytes.
long() {
    local frame="${ok}X: \r\n\r\n"
    printf '%sX: %s\\r\\n\\r\\n' "$ok" "$(head -c $(($1 - $(printf '%b' "$frame" | wc -c))) /dev/zero | tr '\0' x)"
}

proxy "PROXY: a head of 8191 bytes" "$(long 8191)" send=pong shut read
run 0 pong '' -t10 STDIO "$address"
told 1 "${connects}ping"
finish

proxy "PROXY: a head of 8193 bytes" "$(long 8193)" read
run 1 '' "$not_opened" STDIO "$address"
finish

proxy "PROXY: 8192 bytes without an end" "$(head -c 8192 /dev/zero | tr '\0' x)" read
run 1 '' "$not_opened" STDIO "$address"
finish

proxy "PROXY: a proxy that closes in the head" "$ok"
run 1 '' "$not_opened" STDIO "$address"
finish
