# Options and flags over standard streams, the echo pipe, named pipes, files and TCP.

# passed_on INPUT OUTPUT WORD..: the relay of the words makes this of the input.
passed_on() {
    given "$1"
    run 0 "$2" '' "${@:3}"
}

# --- -t

# held_pipe: a named pipe at which a writer stays, so that a reader sees no end.
held_pipe() {
    with_files
    mkfifo files/pipe
    exec 7<>files/pipe
}

begin "-t is the time that the other direction has"
held_pipe
given ''
run 0 '' '' -t0.4 STDIO 'OPEN:files/pipe!!CREATE:files/new'
between 380 8000
finish

begin "-t with its value as a word of its own"
held_pipe
given ''
run 0 '' '' -t 0.2 STDIO 'OPEN:files/pipe!!CREATE:files/new'
between 180 8000
finish

begin "without -t it is half a second"
held_pipe
given ''
run 0 '' '' STDIO 'OPEN:files/pipe!!CREATE:files/new'
between 480 8000
finish

begin "-t0 gives the other direction no time"
held_pipe
given ''
run 0 '' '' -t0 STDIO 'OPEN:files/pipe!!CREATE:files/new'
between 0 5000
finish

begin "of two -t the later one holds"
held_pipe
given ''
run 0 '' '' -t9 -t0.2 STDIO 'OPEN:files/pipe!!CREATE:files/new'
between 180 8000
finish

begin "what comes within the closing time is passed on"
held_pipe
given ''
start relay -t1 STDIO 'OPEN:files/pipe!!CREATE:files/new'
nap 0.3
printf late >files/pipe
ended relay 0 late ''
between 950 10000
finish

begin "an end within the closing time ends it at once"
with_files
mkfifo files/pipe
given ''
start relay -t60 STDIO 'OPEN:files/pipe!!CREATE:files/new'
exec 7>files/pipe
printf late >&7
exec 7>&-
ended relay 0 late ''
finish

begin "with -u there is no closing time"
given_slowly a 0.6 b
run 0 ab '' -t0.1 -u STDIN STDOUT
finish
exec 7>&-

# --- -T

begin "-T ends a relay in which nothing moves"
given_nothing
run 0 '' '' -T0.4 -u STDIN STDOUT
between 380 8000
finish

begin "-T ends the echo of nothing"
given_nothing
run 0 '' '' -T 0.3 STDIO PIPE
between 280 8000
finish

begin "-T counts from the last byte"
given_slowly a 0.5 b 0.5 c 20 ''
run 0 abc '' -T0.9 -u STDIN STDOUT
between 1700 15000
finish

begin "-T0 is none"
given_slowly a 0.5 b
run 0 ab '' -T0 -u STDIN STDOUT
finish

begin "-T where the output takes nothing more"
with_files
mkfifo files/pipe
exec 7<>files/pipe
given_nothing
run 0 '' '' -T0.5 -u OPEN:/dev/zero OPEN:files/pipe
between 480 15000
exec 7>&-
finish

# --- -b

for block in 1 2 0x10 010 512 65536 1048576; do
    begin "-b$block"
    with_files
    all_bytes >files/old
    given_nothing
    run 0 '' '' "-b$block" -u OPEN:files/old CREATE:files/new
    wrong_if "$(same files/new files/old)"
    passed_on 'a text' 'a text' -b "$block" STDIO PIPE
    finish
done

# --- -u and -U

begin "-U writes to the first address"
passed_on 'a text' 'a text' -U STDOUT STDIN
passed_on 'a text' 'a text' -U STDIO STDIO
finish

# socat(1) takes but one of them.
begin_own "of -u and -U the later one holds"
passed_on 'a text' 'a text' -u -U STDOUT STDIN
passed_on 'a text' 'a text' -U -u STDIN STDOUT
finish

begin "-u with dual addresses takes the half that it needs"
passed_on 'a text' 'a text' -u 'STDIN!!STDERR' 'STDIN!!STDOUT'
finish

begin "- stands for the standard streams"
passed_on 'a text' 'a text' - PIPE
passed_on 'a text' 'a text' -u - -
finish

# --- -s: a fault cuts its direction alone. In socat(1) it does not more than go on where it can, with another status.

if [ -c /dev/full ]; then
    begin_own "without -s a fault ends both directions"
    held_pipe
    input=/dev/zero
    run 1 '' 'socat: write failed on the right' -t60 STDIO 'OPEN:files/pipe!!OPEN:/dev/full'
    finish

    begin_own "with -s the other direction goes on"
    held_pipe
    input=/dev/zero
    start relay -s -t60 STDIO 'OPEN:files/pipe!!OPEN:/dev/full'
    nap 1
    lives relay
    printf late >files/pipe
    exec 7>&-
    ended relay 1 late 'socat: write failed on the right'
    finish

    begin_own "with -s the closing time counts from the fault"
    held_pipe
    input=/dev/zero
    run 1 '' 'socat: write failed on the right' -s -t0.5 STDIO 'OPEN:files/pipe!!OPEN:/dev/full'
    between 480 10000
    exec 7>&-
    finish
fi

begin_own "with -s and a folder to read the other direction goes on"
with_files
given 'a text'
run 1 '' 'socat: read failed on the right' -s -t5 STDIO 'OPEN:files!!CREATE:new'
wrong_if "$(holds new 'a text')"
rm -f new
finish

begin "-s where nothing fails"
passed_on 'a text' 'a text' -s STDIO PIPE
finish

# --- readbytes

begin "readbytes ends the input"
passed_on abcdef abc -u STDIN,readbytes=3 STDOUT
passed_on abcdef abc -t5 STDIO,readbytes=3 PIPE
finish

begin "readbytes where fewer come"
passed_on abc abc -u STDIN,readbytes=4 STDOUT
passed_on '' '' -u STDIN,readbytes=1 STDOUT
finish

begin "readbytes in three forms of a number"
passed_on 0123456789abcdefghij 0123456789abcdef -u STDIN,readbytes=0x10 STDOUT
passed_on 0123456789abcdefghij 01234567 -u STDIN,readbytes=010 STDOUT
passed_on 0123456789abcdefghij 0123456789 -u STDIN,readbytes=10 STDOUT
finish

begin "readbytes is over while the writer stays"
given_slowly abcdef 20 ''
run 0 abc '' -u STDIN,readbytes=3 STDOUT
between 0 15000
finish

begin "readbytes in blocks of 2 and of 1 byte"
passed_on abcdef abc -b2 -u STDIN,readbytes=3 STDOUT
passed_on abcdef abc -b1 -u STDIN,readbytes=3 STDOUT
finish

begin "readbytes of a file, and of one without end"
with_files old abcdef
given_nothing
run 0 abc '' -u OPEN:files/old,readbytes=3 STDOUT
run 0 '' '' -u OPEN:/dev/zero,readbytes=100000 CREATE:files/new
[ "$(cksum <files/new)" = "$(head -c 100000 /dev/zero | cksum)" ] || wrong "other bytes came"
finish

begin "readbytes of the echo pipe"
passed_on abcdef abc -t5 STDIO PIPE,readbytes=3
finish

begin "readbytes counts before conversion"
passed_on 'a\r\nbc' 'a\nb' -u STDIN,readbytes=4,crnl STDOUT
finish

begin "readbytes of both directions"
with_files old abcdef
given 123456
run 0 abc '' -t5 STDIO,readbytes=2 'OPEN:files/old,readbytes=3!!CREATE:files/new'
file_is new 12
finish

# --- escape

begin "escape ends the input before its byte"
passed_on 'abc!def' abc -u STDIN,escape=33 STDOUT
passed_on 'abc!def!' abc -u STDIN,escape=0x21 STDOUT
passed_on 'abc!def' abc -t5 STDIO,escape=33 PIPE
finish

begin "escape where its byte doesn't come, comes first, and comes last"
passed_on abcdef abcdef -u STDIN,escape=33 STDOUT
passed_on '!abc' '' -u STDIN,escape=33 STDOUT
passed_on 'abc!' abc -u STDIN,escape=33 STDOUT
finish

begin "escape is over while the writer stays"
given_slowly 'abc!d' 20 ''
run 0 abc '' -u STDIN,escape=33 STDOUT
between 0 15000
finish

begin "escape at a border of blocks"
passed_on 'abcd!ef' abcd -b4 -u STDIN,escape=33 STDOUT
passed_on 'abc!def' abc -b4 -u STDIN,escape=33 STDOUT
passed_on 'abc!def' abc -b1 -u STDIN,escape=33 STDOUT
finish

begin "escape of the bytes 0 and 255"
passed_on 'ab\0cd' ab -u STDIN,escape=0 STDOUT
passed_on 'ab\xffcd' ab -u STDIN,escape=255 STDOUT
finish

begin "escape within readbytes, and behind them"
passed_on 'ab!cdef' ab -u STDIN,readbytes=5,escape=33 STDOUT
passed_on 'abcde!f' abc -u STDIN,readbytes=3,escape=33 STDOUT
finish

begin "escape in a file"
with_files old 'abc!def'
given_nothing
run 0 abc '' -u OPEN:files/old,escape=33 STDOUT
finish

# --- cr and crnl

begin "cr where it is read, and where it is written"
passed_on 'a\rb\r\nc' 'a\nb\n\nc' -u STDIN,cr STDOUT
passed_on 'a\nb\r\nc' 'a\rb\r\rc' -u STDIN STDOUT,cr
finish

begin "crnl where it is read, and where it is written"
passed_on 'a\r\nb\rc\nd\r\r\n' 'a\nbc\nd\n' -u STDIN,crnl STDOUT
passed_on 'a\nb\n\nc' 'a\r\nb\r\n\r\nc' -u STDIN STDOUT,crnl
finish

begin "crnl at a border of blocks"
passed_on 'abc\r\nd\r\n\r' 'abc\nd\n' -b4 -u STDIN,crnl STDOUT
passed_on 'abc\r\nd\r\n\r' 'abc\nd\n' -b1 -u STDIN,crnl STDOUT
passed_on 'abc\nd\n\n' 'abc\r\nd\r\n\r\n' -b4 -u STDIN STDOUT,crnl
passed_on 'abc\nd\n\n' 'abc\r\nd\r\n\r\n' -b1 -u STDIN STDOUT,crnl
finish

begin "many newlines, written as crnl"
with_files
yes '' | head -n 20000 >files/old
given_nothing
run 0 '' '' -u OPEN:files/old CREATE:files/new,crnl
[ "$(cksum <files/new)" = "$(yes $'\r' | head -n 20000 | cksum)" ] || wrong "other bytes came out"
finish

# socat(1) converts nothing where both name the same one, and else by a table of its own.
begin_own "crnl and cr on both sides: read, and then written"
passed_on 'a\nb\r\nc' 'a\r\nb\r\nc' -u STDIN,crnl STDOUT,crnl
passed_on 'a\nb\rc' 'a\rb\rc' -u STDIN,cr STDOUT,cr
finish

begin_own "cr to crnl, and crnl to cr"
passed_on 'a\rb\nc' 'a\r\nb\r\nc' -u STDIN,cr STDOUT,crnl
passed_on 'a\r\nb\nc' 'a\rb\rc' -u STDIN,crnl STDOUT,cr
finish

begin "of cr and crnl the last that is true holds"
passed_on 'a\r\nb' 'a\nb' -u STDIN,cr,crnl STDOUT
passed_on 'a\r\nb' 'a\n\nb' -u STDIN,crnl,cr STDOUT
finish

# socat(1) takes no value with these.
begin_own "cr=0 and crnl=0 are as if not written"
passed_on 'a\r\nb' 'a\nb' -u STDIN,crnl,cr=0 STDOUT
passed_on 'a\r\nb' 'a\r\nb' -u STDIN,crnl=0 STDOUT
finish

begin "crnl both ways, at a file and at the echo pipe"
with_files old 'a\r\nb\r\n'
given 'c\nd\n'
run 0 'a\nb\n' '' -t5 STDIO 'OPEN:files/old,crnl!!CREATE:files/new,crnl'
file_is new 'c\r\nd\r\n'
passed_on 'a\nb' 'a\nb' -t5 STDIO PIPE,crnl
finish

# --- ignoreeof and null-eof

begin "ignoreeof reads on where a file grows"
with_files old abc
given_nothing
start relay -T3 -u OPEN:files/old,ignoreeof STDOUT
until_there relay.out
nap 0.2
lives relay
printf def >>files/old
ended relay 0 abcdef ''
finish

# In socat(1) ignoreeof also holds behind the last of the readbytes.
begin_own "with ignoreeof readbytes ends it, and so does escape"
with_files old abc
given_nothing
start relay -u OPEN:files/old,ignoreeof,readbytes=6 STDOUT
until_there relay.out
nap 0.2
lives relay
printf def >>files/old
ended relay 0 abcdef ''
start relay -u OPEN:files/old,ignoreeof,escape=33 STDOUT
until_there relay.out
nap 0.2
lives relay
printf 'ghi!j' >>files/old
ended relay 0 abcdefghi ''
finish

begin "with ignoreeof an end isn't one, and -T ends it"
given abc
run 0 abc '' -T0.4 -u STDIN,ignoreeof STDOUT
between 380 8000
finish

begin "with ignoreeof a named pipe has a second writer"
with_files
mkfifo files/pipe
given_nothing
start relay -T3 -u OPEN:files/pipe,ignoreeof STDOUT
printf abc >files/pipe
until_there relay.out
nap 0.2
lives relay
printf def >files/pipe
ended relay 0 abcdef ''
finish

begin "ignoreeof=0 is none"
passed_on abc abc -u STDIN,ignoreeof=0 STDOUT
finish

# socat(1) doesn't take it there.
begin_own "null-eof does nothing where there are no datagrams"
passed_on 'a\0b' 'a\0b' -u STDIN,null-eof STDOUT
passed_on abc abc -t5 STDIO PIPE,null-eof
finish

# --- what is shut

# How the echo ends tells whether its input was closed: else the closing time ends it.
# ends_soon OPTIONS and ends_late OPTIONS
ends_soon() {
    passed_on abc abc -t8 STDIO "PIPE$1"
    between 0 6000
}

ends_late() {
    passed_on abc abc -t0.5 STDIO "PIPE$1"
    between 480 10000
}

begin "the echo pipe is closed at the end of what it takes"
ends_soon ''
finish

begin_own "shut-close, and shut-down where there is no socket: it is closed"
ends_soon ,shut-close
ends_soon ,shut-down
finish

begin_own "shut-none, and shut-null where there are no datagrams: it isn't"
ends_late ,shut-none
ends_late ,shut-null
finish

begin_own "of the shut options the last that is true holds"
ends_late ,shut-close,shut-none
ends_soon ,shut-none,shut-close
ends_soon ,shut-none=0
ends_late ,shut-none,shut-close=0
finish

begin "shut options at files and standard streams change nothing of the bytes"
for option in shut-none shut-down shut-close shut-null; do
    with_files
    given 'a text'
    run 0 '' '' -u STDIN "CREATE:files/new,$option"
    file_is new 'a text'
    passed_on 'a text' 'a text' -u STDIN "STDOUT,$option"
done
finish

# A reader of the output sees whether it is closed while the relay goes on in the other direction. In socat(1) the
# pipe stays open.
begin_own "a named pipe that is written is closed at the end"
with_files
mkfifo files/to files/from
exec 7<>files/from
given 'a text'
start relay -t20 STDIO 'OPEN:files/from!!OPEN:files/to'
cat files/to >files/taken
file_is taken 'a text'
lives relay
printf more >files/from
nap 0.1
terminate relay
await relay
exec 7>&-
finish

begin_own "with shut-none it isn't"
with_files
mkfifo files/to files/from
exec 7<>files/from
given 'a text'
start relay -t1 STDIO 'OPEN:files/from!!OPEN:files/to,shut-none'
begun_at="${EPOCHREALTIME/[.,]/}"
cat files/to >files/taken
[ $(((${EPOCHREALTIME/[.,]/} - begun_at) / 1000)) -ge 800 ] || wrong "it was closed at once"
file_is taken 'a text'
ended relay 0 '' ''
exec 7>&-
finish

# --- retries of what isn't a socket. socat(1) has none there.

begin_own "with -g a file that comes later is opened"
with_files
given_nothing
start relay -g -u OPEN:files/late,retry=100,interval=0.1 STDOUT
nap 0.4
lives relay
printf 'a text' >files/now
mv files/now files/late
ended relay 0 'a text' ''
between 350 10000
finish

begin_own "with -g a file is tried as often as retry says, an interval apart"
with_files
given_nothing
run 1 '' 'socat: open failed on the left after 3 attempts' -g -u OPEN:files/none,retry=2,interval=0.2 STDOUT
between 390 8000
run 1 '' 'socat: open failed on the right after 3 attempts' -g -u STDIN PIPE:files/none,retry=2,interval=0.2
between 390 8000
finish

begin_own "with -g and forever a file is tried until it is there"
with_files
given_nothing
start relay -g -u OPEN:files/late,forever,interval=0.01 STDOUT
nap 0.3
lives relay
printf 'a text' >files/now
mv files/now files/late
ended relay 0 'a text' ''
finish

# --- options that are left out

begin_own "options of files that are left out"
with_files old 'a text'
for option in mode=600 perm=600 user=0 group=0 seek=1 lock=l end-close nonblock; do
    given XY
    run 1 '' 'socat: E09 word 3 half 1: left-out option 1' -u STDIN "OPEN:files/old,$option"
    file_is old 'a text'
done
finish

# --- over TCP

if [ -n "$python" ]; then
    begin "from TCP to a file, with crnl and readbytes"
    with_files
    given_nothing
    start relay -u TCP4-LISTEN:0,crnl,readbytes=7 CREATE:files/new
    peer connect tcp4 "/@${pids[relay]}" 'send=a\r\nb\r\nand more' gone
    ended relay 0 '' ''
    told 1 'gone\n'
    file_is new 'a\nb\na'
    finish

    begin "from a file to TCP, with crnl and escape"
    with_files old 'a\nb\n!more'
    given_nothing
    peer listen tcp4 read
    run 0 '' '' -u OPEN:files/old,escape=33 "TCP4:127.0.0.1:$port,crnl"
    told 1 'a\r\nb\r\n'
    finish

    begin "a file is sent, and the answer goes to another"
    with_files old 'a question'
    given_nothing
    peer listen tcp4 read send=answer
    run 0 '' '' -t10 'OPEN:files/old!!CREATE:files/new' "TCP4:127.0.0.1:$port"
    told 1 'a question'
    file_is new answer
    finish

    begin "TCP to the echo pipe"
    given_nothing
    start relay -t10 TCP4-LISTEN:0 PIPE
    peer connect tcp4 "/@${pids[relay]}" trips=20 shut read
    ended relay 0 '' ''
    told 1 ''
    finish

    begin "TCP to a named pipe, both ways"
    with_files
    mkfifo files/pipe
    given_nothing
    start relay TCP4-LISTEN:0 PIPE:files/pipe
    peer connect tcp4 "/@${pids[relay]}" trips=20
    ended relay 0 '' ''
    told 1 ''
    finish

    begin "-t over TCP from and to files"
    with_files old 'a text'
    given_nothing
    peer listen tcp4 read sleep=20
    run 0 '' '' -t0.3 'OPEN:files/old!!CREATE:files/new' "TCP4:127.0.0.1:$port"
    between 280 8000
    file_is new ''
    finish
fi
rm -rf files
