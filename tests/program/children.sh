# Programs behind an address: EXEC and SYSTEM each way and both, their words, their ends, and what they see.

# pid_of FILE: the process whose number a child wrote to the file.
pid_of() { cat "files/$1"; }

# kill_child FILE: a child that goes on by itself isn't needed any more. It is still there.
kill_child() {
    local pid
    until_there "files/$1"
    pid="$(pid_of "$1")"
    kill -KILL "$pid" 2>/dev/null || wrong "the child has gone"
}

# goes_on PID: it runs, and isn't just waited for.
goes_on() {
    local stat
    stat="$(cat "/proc/$1/stat" 2>/dev/null)" || return 1
    stat="${stat##*) }"
    [ "${stat%% *}" != Z ]
}

# --- each way and both

for kind in EXEC SYSTEM; do
    begin "$kind is read"
    given_nothing
    run 0 'hi\n' '' -u "$kind:echo hi" STDOUT
    run 0 'hi\n' '' -U STDOUT "$kind:echo hi"
    finish

    begin "$kind is written"
    with_files
    given 'a text'
    run 0 '' '' -u STDIN "$kind:dd of=files/new status=none"
    soon_is new 'a text'
    run 0 '' '' -U "$kind:dd of=files/more status=none" STDIN
    soon_is more 'a text'
    finish

    begin "$kind both ways"
    given 'a text\n'
    run 0 'a text\n' '' -t10 STDIO "$kind:cat"
    run 0 'a text\n' '' -t10 "$kind:cat" STDIO
    run 0 'A TEXT\n' '' -t10 STDIO "$kind:tr a-z A-Z"
    finish

    begin "$kind and a file"
    with_files old 'a text'
    given_nothing
    run 0 '' '' -u "$kind:cat files/old" CREATE:files/new
    file_is new 'a text'
    run 0 '' '' -u OPEN:files/old "$kind:dd of=files/more status=none"
    soon_is more 'a text'
    run 0 '' '' -t10 'OPEN:files/old!!CREATE:files/last' "$kind:cat"
    file_is last 'a text'
    finish

    begin "$kind of a dual address"
    with_files
    given XY
    run 0 'hi\n' '' -t10 STDIO "$kind:echo hi!!CREATE:files/new"
    file_is new XY
    finish

    begin "$kind: its errors are the program's own"
    with_files
    given_nothing
    start relay -u "$kind:ls files/none" STDOUT
    await relay
    case "$(<relay.err)" in
        *files/none*) ;;
        *) wrong "it said $(head -c 200 relay.err)" ;;
    esac
    finish

    begin "$kind,pipes"
    given 'a text'
    run 0 'a text' '' -t10 STDIO "$kind:cat,pipes"
    finish

    begin "$kind: the end of its input is passed on"
    with_files script '#!/bin/sh\ncat >/dev/null\necho over\n'
    chmod 755 files/script
    given 'a text'
    run 0 'over\n' '' -t10 STDIO "$kind:./files/script"
    finish

    # In socat(1) the option leaves no other way to tell the child.
    begin_own "$kind,shut-none: it isn't"
    with_files script '#!/bin/sh\ncat >/dev/null\necho over\n'
    chmod 755 files/script
    given 'a text'
    run 0 '' '' -t0.5 STDIO "$kind:./files/script,shut-none"
    between 480 10000
    finish

    begin "$kind with conversions, readbytes and escape"
    given 'a\nb\n'
    run 0 'a\nb\n' '' -t10 STDIO "$kind:cat,crnl"
    given_nothing
    run 0 hel '' -u "$kind:echo hello,readbytes=3" STDOUT
    run 0 h '' -u "$kind:echo hello,escape=101" STDOUT
    run 0 'hello\r\n' '' -u "$kind:echo hello" STDOUT,crnl
    finish
done

begin "two children, one behind the other"
with_files
given_nothing
run 0 '' '' -u 'SYSTEM:seq 1 5000' 'SYSTEM:cksum >files/sum; mv files/sum files/done'
soon_is done "$(seq 1 5000 | cksum)\n"
finish

# socat(1) gives a child one socket for both streams, so one of them alone can't be closed.
begin_own "two children, both ways"
with_files
given_nothing
run 0 '' '' -t10 'SYSTEM:echo from one; exec >files/one; cat; mv files/one files/first' \
    'SYSTEM:echo from two; exec >files/two; cat; mv files/two files/second'
soon_is first 'from two\n'
soon_is second 'from one\n'
finish

# --- words

begin "EXEC: runs of spaces part the words"
given_nothing
run 0 'a b\n' '' -u 'EXEC:echo   a    b' STDOUT
finish

# In socat(1) the name of the program is then empty.
begin_own "EXEC: spaces at the front and the end"
given_nothing
run 0 'a b\n' '' -u 'EXEC:  echo   a    b  ' STDOUT
finish

begin "EXEC: quoted bytes of an address"
given_nothing
run 0 'a:b,c\n' '' -u 'EXEC:echo a\:b\,c' STDOUT
run 0 'a:b,c\n' '' -u 'EXEC:"echo a:b,c"' STDOUT
run 0 "a:b,c\n" '' -u "EXEC:'echo a:b,c'" STDOUT
run 0 'a!!b=c\n' '' -u 'EXEC:echo a\!\!b=c' STDOUT
finish

# socat(1) reads quotes in the command line a second time, and takes a colon for another parameter.
begin_own "EXEC: quotes keep no word together"
given_nothing
run 0 'a b\n' '' -u "EXEC:echo 'a    b'" STDOUT
run 0 'a b\n' '' -u 'EXEC:echo a\ \ b' STDOUT
run 0 "'a b'\n" '' -u "EXEC:\"echo 'a    b'\"" STDOUT
run 0 '"a\n' '' -u 'EXEC:echo \"a' STDOUT
run 0 '(a,b)\n' '' -u 'EXEC:echo (a,b)' STDOUT
run 0 '$HOME *;\n' '' -u 'EXEC:echo $HOME *;' STDOUT
finish

begin "EXEC: a program by its path"
with_files script '#!/bin/sh\necho "$#" "$@"\n'
chmod 755 files/script
given_nothing
run 0 '2 x y\n' '' -u 'EXEC:./files/script x y' STDOUT
run 0 '0\n' '' -u "EXEC:$PWD/files/script" STDOUT
finish

begin "EXEC: a program found by PATH"
with_files some-script '#!/bin/sh\necho found\n'
chmod 755 files/some-script
given_nothing
old_path="$PATH"
PATH="$PWD/files:$PATH"
run 0 'found\n' '' -u EXEC:some-script STDOUT
PATH="$old_path"
finish

begin "SYSTEM: what a shell reads"
with_files
given_nothing
run 0 'a  b\n' '' -u "SYSTEM:\"echo 'a  b'\"" STDOUT
run 0 '1\n2\n' '' -u 'SYSTEM:echo 1; echo 2' STDOUT
run 0 '3\n' '' -u 'SYSTEM:seq 1 3 | tail -n 1' STDOUT
run 0 'yes\n' '' -u 'SYSTEM:false || echo yes' STDOUT
run 0 '' '' -u 'SYSTEM:echo hi >files/new' STDOUT
file_is new 'hi\n'
run 0 'a,b:c\n' '' -u 'SYSTEM:echo a\,b\:c' STDOUT
run 0 'in brackets\n' '' -u 'SYSTEM:(echo in brackets)' STDOUT
finish

begin "SYSTEM: the environment and the folder are the program's own"
given_nothing
export SEEN_BY_CHILDREN='a  value'
run 0 "a  value\n$PWD\n" '' -u 'SYSTEM:echo \"$SEEN_BY_CHILDREN\"; pwd' STDOUT
unset SEEN_BY_CHILDREN
finish

# start_bare WORD..: a relay that has the three standard streams, and nothing else that this script holds.
start_bare() {
    rm -f relay.out relay.err
    (
        trap - EXIT
        for held in "/proc/$BASHPID/fd/"*; do
            held="${held##*/}"
            [ "$held" -le 2 ] || [ "$held" -ge 255 ] || eval "exec $held>&-"
        done
        exec "$program" "$@"
    ) <"$input" >relay.out 2>relay.err &
    pids[relay]=$!
}

# A child has its three streams and nothing else of the program's, other than in socat(1); `ls` itself opens one more.
begin_own "a child has no other descriptors"
given_nothing
start_bare -u 'EXEC:ls /proc/self/fd' STDOUT
ended relay 0 '0\n1\n2\n3\n' ''
given ''
start_bare -t10 STDIO 'EXEC:ls /proc/self/fd'
ended relay 0 '0\n1\n2\n3\n' ''
finish

begin "in one-way use the other stream is the program's own"
given 'a text'
run 0 'a text' '' -u EXEC:cat STDOUT
run 0 'a text' '' -u STDIN EXEC:cat
finish

# --- how children end

# In socat(1) the status of a child becomes the relay's.
begin_own "a child with another status than 0"
given_nothing
run 0 'hi\n' '' -u 'SYSTEM:echo hi; exit 3' STDOUT
run 0 '' '' -u EXEC:false STDOUT
finish

begin_own "a child that is killed"
given_nothing
run 0 'hi\n' '' -u 'SYSTEM:echo hi; kill -9 $$' STDOUT
finish

begin_own "SYSTEM: a command that isn't there, and words that no shell reads"
given_nothing
for command in none-of-these-commands 'echo hi; fi'; do
    start relay -u "SYSTEM:$command" STDOUT
    await relay
    [ "$status" -eq 0 ] || wrong "$command: status $status"
    [ -s relay.err ] || wrong "$command: the shell said nothing"
    ! grep -q '^socat: ' relay.err || [ -z "$own" ] || wrong "it said $(head -c 200 relay.err)"
done
wrong_if "$(holds relay.out '')"
finish

begin "a child that ends at once"
given_nothing
run 0 '' '' -u EXEC:true STDOUT
run 0 '' '' STDIO EXEC:true
run 0 '' '' EXEC:true STDIO
given ''
run 0 '' '' -u STDIN EXEC:true
finish

begin "a child that ends at once, and an input without end"
input=/dev/zero
start relay -u STDIN EXEC:true
await relay
[ "$status" -eq 1 ] || wrong "status $status"
[ -z "$own" ] || said relay.err 'socat: write failed on the right' || wrong "it said $(head -c 200 relay.err)"
between 0 10000
finish

begin "a child's answer comes, and ends it, while standard input stays open"
given_nothing
run 0 'r\n' '' STDIO 'SYSTEM:echo r'
between 0 8000
finish

begin_own "a child that closes its output and lives: one way"
with_files
given_nothing
run 0 '' '' -u 'SYSTEM:echo $$ >files/pid; exec sleep 30 >&-' STDOUT
between 0 8000
kill_child pid
finish

begin_own "a child that closes its output and lives: the closing time ends it"
with_files
given_nothing
run 0 '' '' -t0.5 STDIO 'SYSTEM:echo $$ >files/pid; exec sleep 30 >&-'
between 480 8000
kill_child pid
finish

begin "a child that closes its output still reads"
with_files
given_slowly a 0.4 b
run 0 '' '' -t10 STDIO 'SYSTEM:exec >&-; cat >files/new; mv files/new files/done'
soon_is done ab
finish

begin_own "a child that closes its input and lives: what is written fails"
with_files
input=/dev/zero
start relay -u STDIN 'SYSTEM:echo $$ >files/pid; exec sleep 30 <&-'
await relay
[ "$status" -eq 1 ] || wrong "status $status"
[ -z "$own" ] || said relay.err 'socat: write failed on the right' || wrong "it said $(head -c 200 relay.err)"
kill_child pid
finish

# The end of a child isn't the end of its output, other than in socat(1).
begin_own "a child that ends, and another that goes on with its output"
given_nothing
run 0 'first\nlate\n' '' -u 'SYSTEM:(sleep 1; echo late) & echo first' STDOUT
between 950 10000
finish

begin "a child isn't killed at the end"
with_files
given ''
run 0 '' '' -t0.3 STDIO 'SYSTEM:echo $$ >files/pid; exec sleep 30'
between 280 8000
kill_child pid
finish

begin "a child that writes on is ended by its closed output"
with_files
given_nothing
timeout "$limit" "$program" -u 'SYSTEM:echo $$ >files/pid; exec yes' STDOUT 2>relay.err 8<&- | head -c 10 >files/taken
status="${PIPESTATUS[0]}"
[ "$status" -eq 1 ] || wrong "status $status"
last=$((SECONDS + 5))
while goes_on "$(pid_of pid)"; do
    if [ "$SECONDS" -gt "$last" ]; then
        wrong "the child goes on"
        kill -KILL "$(pid_of pid)"
    fi
    nap 0.1
done
finish

# --- programs that can't be run. socat(1) forks first, and hears of it by the child's end.

# no_program ADDRESS: it fails at its opening, at once, on both sides.
no_program() {
    given x
    run 1 '' 'socat: open failed on the right after 1 attempts' STDIO "$1"
    between 0 5000
    run 1 '' 'socat: open failed on the left after 1 attempts' -u "$1" STDOUT
    between 0 5000
    run 1 '' 'socat: open failed on the right after 1 attempts' -u STDIN "$1"
}

begin_own "EXEC of a program that isn't there"
with_files
no_program EXEC:./none-here
no_program EXEC:none-of-these-programs
no_program 'EXEC:./files/none with words'
finish

begin_own "EXEC of a folder"
with_files
no_program EXEC:./files
finish

begin_own "EXEC of a file without leave to run it"
with_files plain '#!/bin/sh\necho hi\n'
chmod 644 files/plain
no_program EXEC:./files/plain
finish

begin_own "EXEC of a script whose interpreter isn't there"
with_files script '#!/none/such\n'
chmod 755 files/script
no_program EXEC:./files/script
finish

begin_own "with -g a program that comes later is run"
with_files
given_nothing
start relay -g -u EXEC:./files/late,retry=100,interval=0.1 STDOUT
nap 0.3
lives relay
printf '#!/bin/sh\necho hi\n' >files/now
chmod 755 files/now
mv files/now files/late
ended relay 0 'hi\n' ''
finish

# --- much at once

with_files
large >files/large
large_sum="$(cksum <files/large)"
usual_limit="$limit"
limit=60

# large_comes FILE: it holds the 100 MB.
large_comes() { [ "$(cksum <"$1")" = "$large_sum" ] || wrong "other bytes came out"; }

begin "a child that writes 100 MB and ends"
given_nothing
unaudited run_to_end -u 'EXEC:cat files/large' STDOUT
[ "$status" -eq 0 ] || wrong "status $status, said $(head -c 200 relay.err)"
large_comes relay.out
finish

begin "a child that reads 100 MB"
input=files/large
unaudited run_to_end -u STDIN 'SYSTEM:cksum >files/sum; mv files/sum files/done'
[ "$status" -eq 0 ] || wrong "status $status, said $(head -c 200 relay.err)"
soon_is done "$large_sum\n"
rm -f files/done
finish

begin "100 MB through a child"
input=files/large
unaudited run_to_end -t60 STDIO EXEC:cat
[ "$status" -eq 0 ] || wrong "status $status, said $(head -c 200 relay.err)"
large_comes relay.out
finish

begin "100 MB from a child to a child"
given_nothing
unaudited run_to_end -u 'EXEC:cat files/large' 'SYSTEM:cksum >files/sum; mv files/sum files/done'
[ "$status" -eq 0 ] || wrong "status $status, said $(head -c 200 relay.err)"
soon_is done "$large_sum\n"
finish
limit="$usual_limit"

begin "a child that reads nothing while 100 MB wait, and then ends"
input=files/large
unaudited run_to_end -u STDIN 'EXEC:sleep 1'
[ "$status" -eq 1 ] || wrong "status $status"
[ -z "$own" ] || said relay.err 'socat: write failed on the right' || wrong "it said $(head -c 200 relay.err)"
between 900 8000
finish

begin "a child that reads nothing while 100 MB wait: -T ends it"
input=files/large
unaudited run_to_end -T0.5 -u STDIN 'SYSTEM:echo $$ >files/pid; exec sleep 30'
[ "$status" -eq 0 ] || wrong "status $status, said $(head -c 200 relay.err)"
between 480 8000
kill_child pid
rm -f files/pid
finish

begin_own "a child that reads nothing and closes its output while 100 MB wait: -t ends it"
input=files/large
unaudited run_to_end -t0.5 STDIO 'SYSTEM:echo $$ >files/pid; exec sleep 30 >&-'
[ "$status" -eq 0 ] || wrong "status $status, said $(head -c 200 relay.err)"
between 480 8000
kill_child pid
rm -f files/pid
finish

begin "a child that reads nothing while it writes 100 MB"
input=files/large
unaudited run_to_end -t0.5 STDIO 'EXEC:cat files/large'
[ "$status" -le 1 ] || wrong "status $status, said $(head -c 200 relay.err)"
finish

# --- peers

# sees KIND TEXT: the child behind a peer of this kind says the peer's address and port; TEXT has @ for the port.
variables='SYSTEM:echo \"${SOCAT_PEERADDR-none} ${SOCAT_PEERPORT-none}\"'

if [ -n "$python" ]; then
    begin "TCP4: the child sees the peer's address and port"
    given_nothing
    start relay TCP4-LISTEN:0 "$variables"
    peer connect tcp4 "/@${pids[relay]}" from=127.0.0.2 shut read
    ended relay 0 '' ''
    told 1 "127.0.0.2 $port\n"
    finish

    if [ -n "$ipv6" ]; then
        # socat(1) writes all eight parts of the address.
        begin_own "TCP6: the child sees the peer's address and port"
        given_nothing
        start relay TCP6-LISTEN:0 "$variables"
        peer connect tcp6 "/@${pids[relay]}" from=::1 shut read
        ended relay 0 '' ''
        told 1 "[::1] $port\n"
        finish
    fi

    begin "UDP4: the child sees the peer's address and port"
    given_nothing
    start relay -T2 UDP4-LISTEN:0 "SYSTEM:head -c 1 >/dev/null; ${variables#SYSTEM:}"
    peer connect udp4 "/@${pids[relay]}" from=127.0.0.2 send=x read=1
    ended relay 0 '' ''
    told 1 "<127.0.0.2 $port\n>"
    finish

    begin_own "a Unix peer sets no variable"
    given_nothing
    start relay UNIX-LISTEN:served "$variables"
    peer connect unix served shut read
    ended relay 0 '' ''
    told 1 'none none\n'
    finish

    begin "where the program connects there is no variable"
    given_nothing
    peer listen tcp4 shut read
    run 0 '' '' -t5 "TCP4:127.0.0.1:$port" "$variables"
    told 1 'none none\n'
    finish

    begin "where a peer comes behind the child there is no variable"
    with_files
    given_nothing
    start relay "$variables" TCP4-LISTEN:0
    peer connect tcp4 "/@${pids[relay]}" shut read
    ended relay 0 '' ''
    told 1 'none none\n'
    finish

    begin "where there is no peer there is no variable"
    given ''
    run 0 'none none\n' '' -t5 STDIO "$variables"
    finish

    begin "a child behind TCP answers each piece"
    given_nothing
    start relay -t10 TCP4-LISTEN:0 EXEC:cat
    peer connect tcp4 "/@${pids[relay]}" trips=20 shut read
    ended relay 0 '' ''
    told 1 ''
    finish

    begin "20 MB through a child behind TCP"
    given_nothing
    limit=60
    much=20000000
    [ "${LARGE:-$much}" -gt "$much" ] || much="${LARGE:-$much}"
    [ -z "$audits" ] || much=100000
    start relay -t20 TCP4-LISTEN:0 EXEC:cat
    peer connect tcp4 "/@${pids[relay]}" "both=$much"
    ended relay 0 '' ''
    told 1 "$much $(sum_of "$much")\n"
    limit="$usual_limit"
    finish

    begin_own "a child has no socket of the program"
    given_nothing
    start_bare -t10 TCP4-LISTEN:0 'EXEC:ls /proc/self/fd'
    peer connect tcp4 "/@${pids[relay]}" shut read
    ended relay 0 '' ''
    told 1 '0\n1\n2\n3\n'
    finish

    begin "a child that lives on doesn't keep the peer's connection"
    with_files
    given_nothing
    start relay -t0.3 TCP4-LISTEN:0 'SYSTEM:echo $$ >files/pid; exec sleep 30'
    peer connect tcp4 "/@${pids[relay]}" shut gone
    ended relay 0 '' ''
    told 1 'gone\n'
    kill_child pid
    finish
fi
rm -rf files
