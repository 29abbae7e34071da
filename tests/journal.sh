#!/usr/bin/env bash
# Runs the built reader of journals: each view of a journal by hand, whose texts were worked out by hand; the five questions
# of an administrator, each answered by one command on the journal of a real run; the sums of every table, counted from
# the journal's lines by other means; journals that aren't; bytes that a terminal would obey; pictures, read as XML; and
# 10,000 sessions and 16 MiB within their times. One line a case that fails or a group, and 'N passed, M failed' at the
# end; the status is 1 where a case failed.
# Usage: tests/journal.sh [READER [RELAY [PART..]]]      (bin/socat-journal and bin/socat where none is given, and all parts:
# views questions busy totals faults terminals large)
# PATIENCE is how many times longer a case may take on a slow machine. PICTURE names a file for the picture of the busy run.
set -u

. "$(dirname "${BASH_SOURCE[0]}")/common.sh"
find_program "${1:-$here/bin/socat-journal}"
reader="$found"
use_program "${2:-$here/bin/socat}"
quiet=yes
. "$here/tests/relays.sh"
. "$here/tests/sockets/common.sh"

# show WORD..: runs the reader; what it writes is in `shown` and `said`, and its status in `status`.
show() {
    timeout $((60 * patience)) "$reader" "$@" >shown 2>said
    status=$?
}

# shows NAME STATUS LINE WORD..: the reader writes just the text of standard input, and says this line ('' for none).
shows() {
    begin "$1"
    cat >wanted
    show "${@:4}"
    [ "$status" -eq "$2" ] || wrong "status $status, said $(head -c 200 said)"
    wrong_if "$(diff wanted shown | head -n 5)"
    said said "$3" || wrong "said $(head -c 200 said)"
    finish
}

# refuses NAME STATUS LINE WORD..: it writes nothing.
refuses() { shows "$@" </dev/null; }

# --- each view of a journal by hand: a session that ends, one that is cut, and one that goes on

two_ways=(TCP-LISTEN:80,fork EXEC:cat)

three_sessions() {
    cat <<'END'
listening 0LBd
nopeer 0LBd
turn - 1000 0LBdr 0
accepted 0LB- 4:0a000001:4001
opened 0RB-
read 0LB- x68690a
wrote 0RB- x68690a
turn 1500 1200 0RB-r 0
read 0RB- x48490a00
wrote 0LB- x4849
wrote 0LB- x0a00
end 0LB-
shut 0RB- close
turn 1700 1250 0LBdr,0RB-r 0
accepted 1LB- 6:00000000000000000000000000000001:4002
opened 1RB-
read 1LB- xff1b
end 0RB-
shut 0LB- down
closed 0LB- finished
closed 0RB- finished
reaped 0RB- ended 3
turn - 1500 1RB-w 0
wrote 1RB- xff
writefault 1RB-
closed 1LB- faulted
closed 1RB- faulted
reaped 1RB- killed
turn - 2000 0LBdr 0
accepted 2LB- l
later 2RB-
turn - 2500 2RB-w 0
openfail 2RB-
turn - 3000 - 1
END
}

views() {
    three_sessions >three
    shows 'the table' 0 '' three "${two_ways[@]}" <<'END'
session peer                        began      ended       idle     > read  > written > end      < read  < written < end  child    closed by
      0 10.0.0.1:4001               1.000      1.250      0.050          3          3 passed          4          4 passed 3        finished
      1 [::1]:4002                  1.250      1.500      0.000          2          1 failed          0          0 cut    killed   a failed read or write
      2 local                       2.000          -      1.000          0          0 open            0          0 open   -        -
outcome: none yet
END
    shows 'the timeline' 0 '' --timeline three "${two_ways[@]}" <<'END'
session |0 s                                                  3.000 s|
      0 |                   >---)|                                   | 10.0.0.1:4001          finished
      1 |                        >----x                              | [::1]:4002             a failed read or write
      2 |                                       ?---------?----------| local                  -
o opened  ? an opening failed  > < = bytes passed  ) ( an end passed on  ! failed  | finished  x cut  - nothing
END
    shows 'the acts' 0 '' --acts three "${two_ways[@]}" <<'END'
     0.000 session 0, first address, its door: listens
     0.000 session 0, first address, its door: no peer yet
     1.000 run: waited, ready: 1
     1.000 session 0, first address: a peer came: 10.0.0.1:4001
     1.000 session 0, second address: opened
     1.000 session 0, first address: bytes read: 3
     1.000 session 0, second address: bytes written: 3
     1.200 run: waited, ready: 1
     1.200 session 0, second address: bytes read: 4
     1.200 session 0, first address: bytes written: 2
     1.200 session 0, first address: bytes written: 2
     1.200 session 0, first address: the end read
     1.200 session 0, second address: the end passed on by closing
     1.250 run: waited, ready: 2
     1.250 session 1, first address: a peer came: [::1]:4002
     1.250 session 1, second address: opened
     1.250 session 1, first address: bytes read: 2
     1.250 session 0, second address: the end read
     1.250 session 0, first address: the end passed on by ending the writing half
     1.250 session 0, first address: closed: finished
     1.250 session 0, second address: closed: finished
     1.250 session 0, second address: its child: 3
     1.500 run: waited, ready: 1
     1.500 session 1, second address: bytes written: 1
     1.500 session 1, second address: a write failed
     1.500 session 1, first address: closed: a failed read or write
     1.500 session 1, second address: closed: a failed read or write
     1.500 session 1, second address: its child: killed
     2.000 run: waited, ready: 1
     2.000 session 2, first address: a peer came: local
     2.000 session 2, second address: its opening is under way
     2.500 run: waited, ready: 1
     2.500 session 2, second address: its opening failed
     3.000 run: waited, ready: 0, and a stop
END
    shows 'the bytes written to the right' 0 '' --bytes 0 right three "${two_ways[@]}" <<<'hi'
    shows 'the bytes written to the left' 0 '' --bytes 0 left three "${two_ways[@]}" < <(printf 'HI\n\0')
    shows 'the bytes written before a fault' 0 '' --bytes 1 right three "${two_ways[@]}" < <(printf '\xff')
    shows 'the bytes read before it' 0 '' --read --bytes 1 right three "${two_ways[@]}" < <(printf '\xff\x1b')
    shows 'the same words in another order' 0 '' --bytes 1 right --read three "${two_ways[@]}" < <(printf '\xff\x1b')
    refuses 'the bytes of a direction without any' 0 '' --bytes 2 left three "${two_ways[@]}"
    shows 'a dump of text' 0 '' --text 0 left three "${two_ways[@]}" < <(printf '< length=4 from=0 to=3\nHI\n\\x00\n')
    shows 'a dump in hexadecimal' 0 '' --hex 1 right three "${two_ways[@]}" < <(printf '> length=2 from=0 to=1\n ff 1b\n')
    one_way=(-u STDIN TCP:host:80)
    printf 'opened 0LI-\nread 0LI- x61\nread 0LI- x6263\nturn - 900000 - 0\n' >retried
    shows 'a dump of two pieces' 0 '' --text 0 right retried "${one_way[@]}" <<'END'
> length=1 from=0 to=0
a
> length=2 from=1 to=2
bc
END
    shows 'a direction that is not formed' 0 '' retried "${one_way[@]}" <<'END'
session peer                        began      ended       idle     > read  > written > end      < read  < written < end  child    closed by
      0 -                           0.000          -    900.000          3          0 open            -          - -      -        -
outcome: none yet
END
    shows 'an empty journal' 0 '' /dev/null "${one_way[@]}" <<'END'
session peer                        began      ended       idle     > read  > written > end      < read  < written < end  child    closed by
      0 -                           0.000          -      0.000          0          0 open            -          - -      -        -
outcome: none yet
END
}

# --- the five questions, each by one command, on the journal of a server with two clients, of which one falls silent

# answers NAME TEXT VIEW..: the view of the run shows just this text.
answers() {
    begin "$1"
    show "${@:3}" run.journal "${server[@]}"
    [ "$(<shown)" = "$2" ] || wrong "it says $(head -c 300 shown said)"
    finish
}

# cell SESSION NUMBER: a cell of the session's row in the table, by blanks.
cell() { awk -v session="$1" -v number="$2" '$1 == session { print $number }' shown; }

# tells NAME WANTED GOT: a look at what was shown finds just this.
tells() {
    begin "$1"
    [ "$3" = "$2" ] || wrong "it is $3, not $2, in $(<shown)"
    finish
}

# column NUMBER: a column of the table, in one line; NF for the last.
column() { awk "NR > 1 && !/^outcome/ { print \$$1 }" shown | tr '\n' ' '; }

# has_line NAME PATTERN: what was shown has such a line.
has_line() {
    begin "$1"
    grep -q "$2" shown || wrong "no such line in $(<shown)"
    finish
}

questions() {
    local one other
    begin 'a server with two clients'
    given_nothing
    server=(-T 0.7 TCP4-LISTEN:0,fork,stop-after=2 'SYSTEM:read -r line; echo heard $line; cat >/dev/null')
    start relay --journal=run.journal "${server[@]}"
    peer connect tcp4 "/@${pids[relay]}" 'send=asked\n' shut read
    one="127.0.0.1:$port"
    told 1 'heard asked\n'
    peer connect tcp4 "/@${pids[relay]}" send=silence read
    other="127.0.0.1:$port"
    ended relay 0 '' ''
    finish
    show run.journal "${server[@]}"
    tells 'who came' "$one $other" "$(cell 0 2) $(cell 1 2)"
    tells 'why did it end' $'finished\ninactivity' "$(awk '$1 == 0 || $1 == 1 { print $NF }' shown)"
    tells 'how long did it idle' yes "$(awk '$1 == 1 { print ($5 >= 0.7 && $5 < 5 ? "yes" : $5 " s") }' shown)"
    answers 'what did they send' asked --bytes 0 right
    answers 'what did the other send' silence --bytes 1 right
    answers 'what came back' 'heard asked' --bytes 0 left
    show --acts run.journal "${server[@]}"
    tells 'the acts of the run' "$(wc -l <run.journal)" "$(wc -l <shown)"
}

# --- a busy run: a server that comes late, a client that falls silent, one that talks, one that breaks off, and one that only
# listens after its question

busy() {
    local words
    begin 'a relay with five clients'
    given_nothing
    words=(-t 1 -T 1.2 TCP4-LISTEN:0,fork,stop-after=5 'UNIX-CONNECT:./server,retry=20,interval=0.3')
    start relay --journal=busy.journal "${words[@]}"
    peer connect tcp4 "/@${pids[relay]}" send=late shut read
    nap 0.8
    start server UNIX-LISTEN:./server,fork,stop-after=5 'SYSTEM:cat; sleep 0.6; echo done'
    listens_at ./server
    peer connect tcp4 "/@${pids[relay]}" send=silent read
    nap 0.2
    peer connect tcp4 "/@${pids[relay]}" send=one sleep=0.3 send=two sleep=0.3 send=three shut read
    nap 0.2
    peer connect tcp4 "/@${pids[relay]}" send=broken sleep=0.5 reset
    nap 0.2
    peer connect tcp4 "/@${pids[relay]}" send=question shut read
    ended relay 0 '' ''
    finish
    show busy.journal "${words[@]}"
    tells 'why each of five ended' 'finished inactivity finished write finished ' "$(column NF)"
    tells 'what each of five sent' '4 6 11 6 8 ' "$(column 6)"
    show --timeline busy.journal "${words[@]}"
    has_line 'the openings that failed are seen' '^ *0 | *?-*?'
    has_line 'the half-close is seen' '^ *4 |.*)[<-][<-]*|'
    show --svg busy.journal "${words[@]}"
    [ -z "${PICTURE:-}" ] || cp shown "$PICTURE"
    counted picture shown 5
}

# --- what a script of its own counts from the lines of journals

# counted WORD..: runs tests/journal.py, and takes over its counts.
counted() { add_counts '' < <("$python" -B "$here/tests/journal.py" "$@" 2>&1 || true); }

totals() {
    counted totals "$reader" "$here/tests/data/journals.txt"
    counted totals "$reader" "$here/tests/data/journals_by_hand.txt"
}

# --- what isn't a journal, and where nothing can be written

faults() {
    local journal=(three "${two_ways[@]}")
    three_sessions >three
    { three_sessions | head -n 7 && echo 'wrote 0RB- x6' && three_sessions; } >broken
    printf 'opened 0LI-\nopened 0RO' >cut
    head -c 16777217 /dev/zero >long
    refuses 'a broken line' 1 'no: line 8' broken "${two_ways[@]}"
    refuses 'a broken line, and a picture' 1 'no: line 8' --svg broken "${two_ways[@]}"
    refuses 'a line that is cut' 1 'no: line 2' cut -u STDIN STDOUT
    refuses 'more than 16 MiB' 1 'no: too long' long -u STDIN STDOUT
    refuses 'words that make no relay' 1 'no: words' three TCP-LISTEN:80,fork
    refuses 'the flag that saved the journal' 1 'no: words' three --journal=three "${two_ways[@]}"
    refuses 'a session that has not begun' 1 'no: session' --bytes 3 right "${journal[@]}"
    refuses 'a file that is not there' 3 'socat-journal: the journal can'"'"'t be opened' missing "${two_ways[@]}"
    refuses 'a folder' 3 '' . "${two_ways[@]}"
    for words in '' '--timeline' '--bytes 0 up three' '--bytes 4294967296 right three' '--bytes +1 right three' \
        '--read --text 0 right three' '--bytes 0' '--other three'; do
        # shellcheck disable=SC2086
        show $words
        begin "usage: $words"
        wrong_if "$(ended_with 3 "$status")"
        [ ! -s shown ] || wrong 'something was written'
        grep -q '^usage: socat-journal ' said || wrong "said $(<said)"
        finish
    done
    begin 'a full device'
    "$reader" "${journal[@]}" >/dev/full
    wrong_if "$(ended_with 3 $?)"
    finish
    begin 'a closed output'
    "$reader" "${journal[@]}" >&-
    wrong_if "$(ended_with 3 $?)"
    finish
}

# --- what a terminal would obey

terminals() {
    local view byte hostile=''
    for byte in {0..255}; do
        printf -v hostile '%s%02x' "$hostile" "$byte"
    done
    printf 'opened 0LI-\nopened 0RO-\nread 0LI- x%s\nwrote 0RO- x%s\nnote x%s\n' "$hostile" "$hostile" "$hostile" >hostile
    for view in '' --timeline --svg --acts '--text 0 right' '--hex 0 right'; do
        # shellcheck disable=SC2086
        show $view hostile -u -v STDIN STDOUT
        begin "${view:-the table} of all bytes"
        wrong_if "$(ended_with 0 "$status")"
        [ -s shown ] || wrong 'nothing was written'
        [ "$(LC_ALL=C tr -d ' -~\n' <shown | wc -c)" -eq 0 ] || wrong "a byte that isn't printable"
        finish
    done
    three_sessions >three
    show --svg three "${two_ways[@]}"
    counted picture shown 3
}

# --- many sessions and many acts

# many_sessions COUNT: a journal in which so many peers come at once, each sends two bytes, and all end.
many_sessions() {
    awk -v count="$1" 'BEGIN {
        print "listening 0LBd"
        for (s = 0; s < count; s++) printf "accepted %dLI- 4:7f000001:%d\nopened %dRO-\nread %dLI- x6162\n", s, s, s, s
        print "closed 0LBd served\nturn - 7000 - 0"
        for (s = 0; s < count; s++)
            printf "wrote %dRO- x6162\nend %dLI-\nshut %dRO- close\nclosed %dLI- finished\nclosed %dRO- finished\n", s, s, s, s, s
    }'
}

# short_acts: a journal of one session near the limit of 16 MiB, in which single bytes are passed on.
short_acts() {
    printf 'opened 0LI-\nopened 0RO-\n'
    yes $'read 0LI- x61\nwrote 0RO- x61' | head -n 1156000
}

# within NAME SECONDS PATTERN WORD..: the reader shows a line of this pattern within these seconds, or within PATIENCE times as
# many.
within() {
    local began took
    begin "$1"
    began="$(date +%s%N)"
    show "${@:4}"
    took=$((($(date +%s%N) - began) / 1000000))
    [ "$status" -eq 0 ] && [ "$took" -le $(($2 * 1000 * patience)) ] || wrong "status $status after $took ms"
    grep -q "$3" shown || wrong "no such line after $took ms"
    echo "$1 in $took ms"
    finish
}

large() {
    local words=(-u TCP-LISTEN:80,fork,stop-after=10000 CREATE:f)
    many_sessions 10000 >crowd
    within 'the table of 10,000 sessions' 2 '^   9999 127.0.0.1:9999 .* 7.000 .* 2 passed .* finished$' crowd "${words[@]}"
    tells 'a row for each session' 10002 "$(wc -l <shown)"
    within 'the timeline of 10,000 sessions' 3 '^   9999 |>.*|| 127.0.0.1:9999 ' --timeline crowd "${words[@]}"
    within 'the picture of 10,000 sessions' 5 '^</svg>$' --svg crowd "${words[@]}"
    counted picture shown 10000
    show --bytes 9999 right crowd "${words[@]}"
    tells 'the bytes of the last session' ab "$(<shown)"
    short_acts >short
    within 'the table of 16 MiB' 2 '^      0 -  .* 578000     578000 open ' short -u STDIN STDOUT
    within 'the timeline of 16 MiB' 3 '^      0 |>' --timeline short -u STDIN STDOUT
    show --bytes 0 right short -u STDIN STDOUT
    begin 'the bytes of 16 MiB'
    [ "$(wc -c <shown)" -eq 578000 ] && [ "$(tr -d a <shown | wc -c)" -eq 0 ] || wrong "status $status"
    finish
}

parts=("${@:3}")
[ "${#parts[@]}" -gt 0 ] || parts=(views questions busy totals faults terminals large)
for part in "${parts[@]}"; do
    "$part"
    sum_up "$part"
done
end_cases
