# Files, named pipes and the echo pipe: what each kind opens, makes, empties and removes, and what passes through.

no_left='socat: open failed on the left after 1 attempts'
no_right='socat: open failed on the right after 1 attempts'

# reads OUTPUT ADDRESS: the relay of the address to standard output gives this text.
reads() { run 0 "$1" '' -u "$2" STDOUT; }

# unread ADDRESS: it can't be opened to be read.
unread() { run 1 '' "$no_left" -u "$1" STDOUT; }

# writes TEXT ADDRESS: the relay of this text to the address.
writes() {
    given "$1"
    run 0 '' '' -u STDIN "$2"
}

# unwritten ADDRESS: it can't be opened to be written.
unwritten() {
    given XY
    run 1 '' "$no_right" -u STDIN "$1"
}

# --- CREATE

begin "CREATE makes a file"
with_files
writes 'a text' CREATE:files/new
file_is new 'a text'
finish

begin "CREATE empties a file that is there"
with_files old 'a long text'
writes XY CREATE:files/old
file_is old XY
finish

begin "CREATE empties a file also where nothing comes"
with_files old 'a text'
writes '' CREATE:files/old
file_is old ''
finish

begin "CREATE on the first side, with -U"
with_files
given 'a text'
run 0 '' '' -U CREATE:files/new STDIN
file_is new 'a text'
finish

begin "the mode of a new file is by the umask, and that of an old one stays"
with_files old ''
chmod 600 files/old
mask="$(umask)"
umask 027
writes x CREATE:files/new
writes x CREATE:files/old
umask "$mask"
modes="$(stat -c %a files/new files/old | tr '\n' ' ')"
[ "$modes" = '640 600 ' ] || wrong "the modes are $modes"
finish

begin "CREATE in a folder that isn't there"
with_files
unwritten CREATE:files/none/new
finish

begin "CREATE of a folder"
with_files
unwritten CREATE:files
finish

begin "CREATE,unlink-early leaves the file that was there to its other name"
with_files old 'a text'
ln files/old files/other
writes XY CREATE:files/old,unlink-early
file_is old XY
file_is other 'a text'
finish

begin "CREATE,unlink-close removes the file at the end"
with_files old 'a text'
ln files/old files/other
writes XY CREATE:files/old,unlink-close
no_file old
file_is other XY
finish

begin "CREATE through a symbolic link"
with_files old 'a text'
ln -s old files/link
writes XY CREATE:files/link
file_is old XY
[ -L files/link ] || wrong "the link is gone"
finish

# --- OPEN

begin "OPEN reads a file"
with_files old 'a text\n'
reads 'a text\n' OPEN:files/old
file_is old 'a text\n'
finish

begin "OPEN reads an empty file"
with_files old ''
reads '' OPEN:files/old
finish

begin "OPEN of nothing, to be read"
with_files
unread OPEN:files/none
no_file none
finish

begin "OPEN of nothing, to be written"
with_files
unwritten OPEN:files/none
no_file none
finish

begin "OPEN of nothing, both ways"
with_files
given XY
run 1 '' "$no_right" STDIO OPEN:files/none
no_file none
finish

begin "OPEN writes over the beginning of a file"
with_files old abcdef
writes XY OPEN:files/old
file_is old XYcdef
finish

begin "OPEN,creat makes a file"
with_files
writes XY OPEN:files/new,creat
file_is new XY
finish

begin "OPEN,creat writes over the beginning of a file that is there"
with_files old abcdef
writes XY OPEN:files/old,creat
file_is old XYcdef
finish

begin "OPEN,creat both ways makes a file"
with_files
given ''
run 0 '' '' STDIO OPEN:files/new,creat
file_is new ''
finish

begin "OPEN,creat=0 makes none"
with_files
unwritten OPEN:files/none,creat=0
no_file none
finish

begin "OPEN,creat,creat=0: the last holds"
with_files
unwritten OPEN:files/none,creat,creat=0
no_file none
finish

# socat(1) leaves the flag to the system, which makes the file.
begin_own "OPEN,creat to be read fails"
with_files
unread OPEN:files/none,creat
no_file none
finish

begin "OPEN,append writes at the end"
with_files old abcdef
writes XY OPEN:files/old,append
file_is old abcdefXY
finish

begin "OPEN,append=0 writes at the beginning"
with_files old abcdef
writes XY OPEN:files/old,append=0
file_is old XYcdef
finish

begin "OPEN,append writes at the end also where the file has grown"
with_files old abc
given_by_hand
start relay -u STDIN OPEN:files/old,append
give 1
soon_is old abc1
printf d >>files/old
give 2
give_end
ended relay 0 '' ''
file_is old abc1d2
finish

begin "OPEN,trunc empties the file"
with_files old abcdef
writes XY OPEN:files/old,trunc
file_is old XY
finish

begin "OPEN,trunc=0 doesn't"
with_files old abcdef
writes XY OPEN:files/old,trunc=0
file_is old XYcdef
finish

begin "OPEN,trunc of nothing makes nothing"
with_files
unwritten OPEN:files/none,trunc
no_file none
finish

begin "OPEN,creat,append makes a file, and then writes at its end"
with_files
writes XY OPEN:files/new,creat,append
writes Z OPEN:files/new,creat,append
file_is new XYZ
finish

begin "OPEN,creat,trunc makes a file, and then empties it"
with_files
writes XY OPEN:files/new,creat,trunc
writes Z OPEN:files/new,creat,trunc
file_is new Z
finish

begin "OPEN,creat,excl makes a file"
with_files
writes XY OPEN:files/new,creat,excl
file_is new XY
finish

begin "OPEN,creat,excl of a file that is there"
with_files old 'a text'
unwritten OPEN:files/old,creat,excl
file_is old 'a text'
finish

begin "OPEN,rdonly both ways is read alone"
with_files old 'a text'
given_nothing
run 0 'a text' '' STDIO OPEN:files/old,rdonly
file_is old 'a text'
finish

begin "OPEN,rdonly on the first side"
with_files old 'a text'
given_nothing
run 0 'a text' '' OPEN:files/old,rdonly STDIO
finish

# socat(1) reads from it all the same, and that fails.
begin_own "OPEN,wronly both ways is written alone"
with_files old abcdef
given XY
run 0 '' '' STDIO OPEN:files/old,wronly
file_is old XYcdef
finish

begin_own "OPEN,wronly,creat,trunc on the first side"
with_files old abcdef
given XY
run 0 '' '' OPEN:files/old,wronly,creat,trunc STDIO
file_is old XY
finish

begin "OPEN both ways gives what is there"
with_files old 'a text'
given ''
run 0 'a text' '' -t5 STDIO OPEN:files/old
file_is old 'a text'
finish

begin "OPEN both ways takes what comes"
with_files old ''
given XY
start relay STDIO OPEN:files/old
await relay
[ "$status" -eq 0 ] || wrong "status $status, said $(cat relay.err)"
file_is old XY
finish

# Both ways have one position in the file, so what it gives depends on which comes first.
begin "OPEN,append both ways writes at the end"
with_files old 'a text'
given XY
start relay STDIO OPEN:files/old,append
await relay
[ "$status" -eq 0 ] || wrong "status $status, said $(cat relay.err)"
file_is old 'a textXY'
finish

begin "a folder can't be read"
with_files
start relay -u OPEN:files STDOUT
await relay
[ "$status" -eq 1 ] || wrong "status $status"
wrong_if "$(holds relay.out '')"
finish

begin "a folder can't be written"
with_files
unwritten OPEN:files
finish

begin "OPEN of a device that gives nothing"
reads '' OPEN:/dev/null
finish

begin "OPEN of a device that takes all"
writes 'a text' OPEN:/dev/null
finish

begin "OPEN,unlink-early removes what is there, and then opens nothing"
with_files old 'a text'
unread OPEN:files/old,unlink-early
no_file old
finish

begin "OPEN,creat,unlink-early leaves the file that was there to its other name"
with_files old 'a text'
ln files/old files/other
writes XY OPEN:files/old,creat,unlink-early
file_is old XY
file_is other 'a text'
finish

begin "OPEN,unlink-early=0 removes nothing"
with_files old 'a text'
reads 'a text' OPEN:files/old,unlink-early=0
finish

begin "OPEN,creat,unlink-early where nothing is there"
with_files
writes XY OPEN:files/new,creat,unlink-early
file_is new XY
finish

begin "OPEN,unlink-close removes the file at the end"
with_files old 'a text'
reads 'a text' OPEN:files/old,unlink-close
no_file old
finish

begin "OPEN,unlink-close=0 leaves it"
with_files old 'a text'
reads 'a text' OPEN:files/old,unlink-close=0
file_is old 'a text'
finish

begin "OPEN,unlink-close where the file has gone before"
with_files old ''
given_by_hand
start relay -u STDIN OPEN:files/old,unlink-close
give X
soon_is old X
mv files/old files/moved
give Y
give_end
ended relay 0 '' ''
file_is moved XY
finish

begin "unlink-close also where the other address can't be opened"
with_files old 'a text'
run 1 '' "$no_right" -u OPEN:files/old,unlink-close OPEN:files/none
no_file old
finish

begin "a file name with a colon, a comma and a space, quoted"
with_files 'a:b,c d' 'a text'
reads 'a text' 'OPEN:files/a\:b\,c d'
reads 'a text' 'OPEN:"files/a:b,c d"'
finish

begin "a file name with brackets and an equals sign"
with_files 'a(b,c)=d' 'a text'
reads 'a text' 'OPEN:files/a(b,c)=d'
finish

begin "a file name with !!, quoted"
with_files 'a!!b' 'a text'
reads 'a text' 'OPEN:files/a\!\!b'
finish

begin "keywords and options in small and large letters"
with_files
writes XY open:files/new,CREAT,Append
file_is new XY
finish

begin "OPEN through a symbolic link, and of one that leads nowhere"
with_files old 'a text'
ln -s old files/link
ln -s none files/lost
reads 'a text' OPEN:files/link
unread OPEN:files/lost
finish

# --- GOPEN

begin "GOPEN reads a file"
with_files old 'a text'
reads 'a text' GOPEN:files/old
finish

begin "a name with a slash is GOPEN"
with_files old 'a text'
reads 'a text' files/old
reads 'a text' "$PWD/files/old"
finish

# socat(1) takes the colons for more parameters.
begin_own "a name with a slash, and colons behind it"
with_files a:b:c 'a text'
reads 'a text' ./files/a:b:c
finish

begin "GOPEN of nothing makes a file, also to read it"
with_files
reads '' GOPEN:files/new
file_is new ''
finish

begin "GOPEN writes at the end of a file"
with_files old abcdef
writes XY GOPEN:files/old
file_is old abcdefXY
finish

begin "GOPEN makes a file to write it"
with_files
writes XY GOPEN:files/new
file_is new XY
finish

begin "GOPEN both ways makes a file"
with_files
given ''
run 0 '' '' STDIO GOPEN:files/new
file_is new ''
finish

begin "GOPEN both ways gives what is there"
with_files old 'a text'
given ''
run 0 'a text' '' -t5 STDIO GOPEN:files/old
file_is old 'a text'
finish

begin "GOPEN both ways writes at the end"
with_files old 'a text'
given XY
start relay STDIO GOPEN:files/old
await relay
[ "$status" -eq 0 ] || wrong "status $status, said $(cat relay.err)"
file_is old 'a textXY'
finish

begin "GOPEN,trunc empties the file"
with_files old abcdef
writes XY files/old,trunc
file_is old XY
finish

begin "GOPEN,creat,excl of a file that is there"
with_files old abcdef
unwritten files/old,creat,excl
file_is old abcdef
finish

begin "GOPEN,rdonly both ways is read alone"
with_files old 'a text'
given_nothing
run 0 'a text' '' STDIO files/old,rdonly
finish

begin_own "GOPEN,wronly both ways is written alone"
with_files old abcdef
given XY
run 0 '' '' files/old,wronly STDIO
file_is old abcdefXY
finish

begin "GOPEN of a folder, to be written"
with_files
unwritten ./files
finish

begin "GOPEN in a folder that isn't there"
with_files
unwritten files/none/new
finish

begin "GOPEN,unlink-early and unlink-close"
with_files old 'a text' more 'a text'
ln files/old files/other
writes XY files/old,unlink-early
file_is old XY
file_is other 'a text'
reads 'a text' files/more,unlink-close
no_file more
finish

begin "GOPEN of devices"
reads '' /dev/null
writes 'a text' /dev/null
finish

# --- named pipes

# a_pipe NAME: there is such a named pipe in the folder `files`, and nothing else.
a_pipe() {
    with_files
    mkfifo "files/$1"
}

put_in() { printf '%b' "$2" >"files/$1"; }

take_out() { cat "files/$1" >"files/$2"; }

# pipe_stays NAME: the named pipe is there.
pipe_stays() { [ -p "files/$1" ] || wrong "$1 isn't there"; }

# pipe_is_gone NAME: it was removed at the end. socat(1) removes only a named pipe that it made.
pipe_is_gone() { [ -z "$own" ] || no_file "$1"; }

begin "PIPE reads a named pipe, and removes it at the end"
a_pipe pipe
behind writer put_in pipe 'a text'
reads 'a text' PIPE:files/pipe
pipe_is_gone pipe
finish

begin "PIPE writes to a named pipe, and removes it at the end"
a_pipe pipe
behind reader take_out pipe taken
writes 'a text' PIPE:files/pipe
soon_is taken 'a text'
pipe_is_gone pipe
finish

begin "PIPE,unlink-close=0 leaves the named pipe"
a_pipe pipe
behind writer put_in pipe 'a text'
reads 'a text' PIPE:files/pipe,unlink-close=0
pipe_stays pipe
finish

begin "PIPE to be read waits for a writer"
a_pipe pipe
given_nothing
start relay -u PIPE:files/pipe STDOUT
nap 0.3
lives relay
put_in pipe 'a text'
ended relay 0 'a text' ''
finish

begin "PIPE to be written waits for a reader"
a_pipe pipe
given 'a text'
start relay -u STDIN PIPE:files/pipe
nap 0.3
lives relay
take_out pipe taken
ended relay 0 '' ''
file_is taken 'a text'
finish

begin "an empty input to a named pipe: its reader sees the end"
a_pipe pipe
given ''
behind reader take_out pipe taken
run 0 '' '' -u STDIN PIPE:files/pipe,unlink-close=0
await reader
file_is taken ''
finish

begin "PIPE is read as long as there is a writer"
a_pipe pipe
given_nothing
start relay -u PIPE:files/pipe STDOUT
exec 7>files/pipe
put_in pipe one
put_in pipe two
nap 0.2
lives relay
exec 7>&-
ended relay 0 onetwo ''
finish

begin "PIPE both ways gives back what it takes"
a_pipe pipe
given hi
run 0 hi '' STDIO PIPE:files/pipe
pipe_is_gone pipe
finish

begin "PIPE on the first side"
a_pipe pipe
given hi
run 0 hi '' PIPE:files/pipe STDIO
finish

begin "two named pipes, one for each way"
with_files
mkfifo files/from files/to
behind writer put_in from 'from there'
behind reader take_out to taken
given 'from here'
run 0 'from there' '' -t5 STDIO 'PIPE:files/from!!PIPE:files/to'
soon_is taken 'from here'
pipe_is_gone from
pipe_is_gone to
finish

# socat(1) would wait at the opening.
begin_own "PIPE to be read without a writer: -T ends it"
a_pipe pipe
given_nothing
run 0 '' '' -T0.4 -u PIPE:files/pipe STDOUT
between 380 8000
no_file pipe
finish

begin_own "PIPE to be written without a reader: -T ends it"
a_pipe pipe
given_nothing
run 0 '' '' -T0.4 -u STDIN PIPE:files/pipe
between 380 8000
no_file pipe
finish

# socat(1) makes a named pipe where none is there.
begin_own "PIPE of nothing"
with_files
unread PIPE:files/none
no_file none
unwritten PIPE:files/none
no_file none
given hi
run 1 '' "$no_right" STDIO PIPE:files/none
no_file none
finish

begin_own "PIPE,unlink-early removes the named pipe, and then finds none"
a_pipe pipe
unread PIPE:files/pipe,unlink-early
no_file pipe
finish

begin_own "PIPE of a plain file, which stays"
with_files old 'a text'
unread PIPE:files/old
file_is old 'a text'
unwritten PIPE:files/old
file_is old 'a text'
finish

begin "PIPE of a folder"
with_files
unread PIPE:files
finish

begin "OPEN and GOPEN of a named pipe, each way, which stays"
a_pipe pipe
behind writer put_in pipe 'a text'
reads 'a text' OPEN:files/pipe
behind writer put_in pipe 'a text'
reads 'a text' files/pipe
behind reader take_out pipe taken
writes XY OPEN:files/pipe
soon_is taken XY
behind reader take_out pipe taken
writes Z files/pipe
soon_is taken Z
pipe_stays pipe
finish

# --- the echo pipe

begin "STDIO PIPE: every byte value comes back"
all_bytes >"$scratch/binary"
input="$scratch/binary"
start relay STDIO PIPE
await relay
[ "$status" -eq 0 ] || wrong "status $status, said $(cat relay.err)"
wrong_if "$(same relay.out "$scratch/binary")"
finish

begin "PIPE STDIO: pieces come back as they come"
given_by_hand
start relay -t5 PIPE STDIO
give a
until_there relay.out
wrong_if "$(holds relay.out a)"
give bc
give_end
ended relay 0 abc ''
finish

begin "-u to PIPE: what it holds is lost"
writes hi PIPE
finish

begin "STDIN!!STDOUT PIPE"
given hi
run 0 hi '' -t5 'STDIN!!STDOUT' PIPE
finish

# --- file to file

# copies WORD..: the relay of the words makes files/copy the same as files/old.
copies() {
    rm -f files/copy
    given_nothing
    run 0 '' '' "$@"
    wrong_if "$(same files/copy files/old)"
}

begin "file to file, each way to write it"
with_files
all_bytes >files/old
copies -u OPEN:files/old CREATE:files/copy
copies -u files/old files/copy
copies -U CREATE:files/copy OPEN:files/old
copies -U GOPEN:files/copy GOPEN:files/old
finish

begin_own "file to file by rdonly and wronly"
with_files
all_bytes >files/old
copies OPEN:files/old,rdonly OPEN:files/copy,wronly,creat,excl
copies OPEN:files/copy,wronly,creat OPEN:files/old,rdonly
finish

begin "file to file in blocks of 1, 3, 511, 512, 513 and 1048576 bytes"
with_files
all_bytes >files/old
for block in 1 3 511 512 513 1048576; do
    copies "-b$block" -u OPEN:files/old CREATE:files/copy
done
finish

begin "two pairs of files, crosswise"
with_files one 'the first' two 'the second'
given_nothing
run 0 '' '' -t5 'OPEN:files/one!!CREATE:files/three' 'OPEN:files/two!!CREATE:files/four'
file_is three 'the second'
file_is four 'the first'
finish

begin "a file to read and another to write"
with_files old 'a text'
given XY
run 0 'a text' '' -t5 STDIO 'OPEN:files/old!!CREATE:files/new'
file_is new XY
finish

begin "standard input and a file to write"
with_files old 'a text'
given XY
run 0 '' '' -t5 'STDIN!!CREATE:files/new' 'OPEN:files/old!!OPEN:files/more,creat'
file_is new 'a text'
file_is more XY
finish

# socat(1) opens both.
begin_own "the half of a dual address that isn't needed isn't opened"
with_files old 'a text'
reads 'a text' 'OPEN:files/old!!CREATE:files/new'
no_file new
writes XY 'OPEN:files/none!!CREATE:files/new'
file_is new XY
finish

begin "a file to a named pipe, and a named pipe to a file"
a_pipe pipe
all_bytes >files/old
behind reader take_out pipe taken
run 0 '' '' -u OPEN:files/old PIPE:files/pipe,unlink-close=0
behind writer cp files/old files/pipe
run 0 '' '' -u PIPE:files/pipe CREATE:files/copy
wrong_if "$(same files/copy files/old)"
nap 0.1
wrong_if "$(same files/taken files/old)"
finish

# --- 100 MB

with_files
large >files/large
large_sum="$(cksum <files/large)"

# is_large NAME: the file in the folder `files` holds the 100 MB.
is_large() {
    [ "$(cksum <"files/$1")" = "$large_sum" ] || wrong "$1 has other bytes"
    rm -f "files/$1"
}

# carries STATUS WORD..: the relay of the words ends so, with the 100 MB as its input.
carries() {
    input=files/large
    unaudited run_to_end "${@:2}"
    [ "$status" -eq "$1" ] || wrong "status $status, said $(head -c 200 relay.err)"
    said relay.err '' || wrong "it said $(head -c 200 relay.err)"
}

usual_limit="$limit"
limit=60

begin "100 MB to a file"
carries 0 -u STDIN CREATE:files/copy
is_large copy
finish

begin "100 MB from a file"
carries 0 -u OPEN:files/large STDOUT
mv relay.out files/copy
is_large copy
finish

begin "100 MB from file to file"
carries 0 -u files/large files/copy
is_large copy
finish

begin "100 MB through the echo pipe"
carries 0 STDIO PIPE
mv relay.out files/copy
is_large copy
finish

begin "100 MB to a named pipe"
mkfifo files/pipe
behind reader take_out pipe taken
carries 0 -u STDIN PIPE:files/pipe
await reader
is_large taken
finish

begin "100 MB from a named pipe"
mkfifo files/pipe
behind writer cp files/large files/pipe
carries 0 -u PIPE:files/pipe CREATE:files/copy
is_large copy
finish

begin "100 MB there and back through two files at once"
cp files/large files/other
input=idle
unaudited run_to_end -t60 'OPEN:files/large!!CREATE:files/copy' 'OPEN:files/other!!CREATE:files/more'
[ "$status" -eq 0 ] || wrong "status $status, said $(head -c 200 relay.err)"
is_large copy
is_large more
finish

limit="$usual_limit"
rm -rf files
