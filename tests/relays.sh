# Relays in the background, their inputs, and what is expected of them.

# How many seconds a relay, a peer or what is waited for may take; PATIENCE times as many on a slow machine.
patience="${PATIENCE:-1}"
limit=$((15 * patience))
# The processes of the case, by their tags.
declare -A pids=()

# Whether it is this project's program. Of another socat the texts on standard error aren't compared, and cases in which
# it is meant to do otherwise are left out.
own=''
case "$("$program" -V 2>&1)" in
    'socat relay, '*) own=yes ;;
esac

end_all() {
    local tag
    for tag in "${!pids[@]}"; do
        kill -KILL "${pids[$tag]}" 2>/dev/null
        wait "${pids[$tag]}" 2>/dev/null
    done
    pids=()
}
# A process that a signal ends before it has become a relay is a copy of this script, and leaves all as it is.
trap '[ "$BASHPID" -ne "$$" ] || { end_all; rm -rf "$scratch"; }' EXIT
cd "$scratch" || exit 1

# Nobody writes here, so a reader waits.
mkfifo idle slow
exec 8<>idle

# nap SECONDS: waits without another process.
nap() { read -rt "$1" -u 8 _; }

# --- around each case

before_case() {
    audited_case "$name"
    peers=0
    begun="${EPOCHREALTIME/[.,]/}"
    rm -f socket called served
    given ''
}

after_case() { end_all; }

# begin_own NAME: a case in which this program is meant to do otherwise than socat(1).
begin_own() {
    begin "$1"
    [ -n "$own" ] || left_out=yes
}

# files_here: the files of this folder and of those in it, but for what is kept for the audit.
files_here() { find . -maxdepth 2 -not -path './audits*' | sort; }

# processes_here: what runs in this folder, but for this script and the peers and relays of the case.
processes_here() {
    local folder
    for folder in /proc/[0-9]*; do
        [ "$(readlink "$folder/cwd" 2>/dev/null)" = "$scratch" ] || continue
        [ "$(readlink "$folder/exe" 2>/dev/null)" != "$(readlink /proc/$$/exe)" ] || continue
        case " ${pids[*]} " in *" ${folder#/proc/} "*) continue ;; esac
        echo "${folder#/proc/} $(tr '\0' ' ' <"$folder/cmdline" 2>/dev/null)"
    done
}

# leaves_nothing COUNT OUTPUT INPUT WORD..: so many relays in a row with this input and output and status 0 leave no file
# and no process.
leaves_nothing() {
    local number before now left
    mkdir -p temporary
    : >relay.out
    : >relay.err
    before="$(files_here)"
    for ((number = 1; number <= $1; number++)); do
        TMPDIR="$scratch/temporary" timeout "$limit" "$program" "${@:4}" <"$3" >relay.out 2>relay.err 8<&-
        status=$?
        if [ "$status" -ne 0 ] || [ -s relay.err ] || [ "$(<relay.out)" != "$2" ]; then
            wrong "relay $number: status $status, got $(<relay.out), said $(<relay.err)"
            return
        fi
    done
    now="$(files_here)"
    [ "$now" = "$before" ] || wrong "new files: $(diff <(echo "$before") <(echo "$now") | head -3)"
    nap 0.3
    left="$(processes_here)"
    [ -z "$left" ] || wrong "processes are left: ${left%%$'\n'*}"
}

# until_there FILE: waits until the file is there, and isn't empty.
until_there() {
    local last=$((SECONDS + limit))
    until [ -s "$1" ]; do
        if [ "$SECONDS" -gt "$last" ]; then
            wrong "$1 doesn't come"
            return
        fi
        nap 0.01
    done
}

# --- files

# with_files [NAME TEXT]..: the folder `files` holds just these files.
with_files() {
    rm -rf files
    mkdir files
    while [ $# -gt 0 ]; do
        printf '%b' "$2" >"files/$1"
        shift 2
    done
}

# file_is NAME TEXT: the file in the folder `files` holds just this text.
file_is() { wrong_if "$(holds "files/$1" "$2")"; }

# soon_is NAME TEXT: it comes to hold just this text.
soon_is() {
    local last=$((SECONDS + limit))
    until [ -z "$(holds "files/$1" "$2")" ]; do
        if [ "$SECONDS" -gt "$last" ]; then
            file_is "$1" "$2"
            return
        fi
        nap 0.05
    done
}

# no_file NAME: there is no such entry in the folder `files`.
no_file() { [ ! -e "files/$1" ] || wrong "there is $1"; }

# behind TAG COMMAND..: runs it beside the relay.
behind() {
    "${@:2}" 8<&- &
    pids[$1]=$!
}

# --- inputs of the relays that are started next

# given TEXT: just this text.
given() {
    printf '%b' "$1" >in
    input=in
}

# given_nothing: no byte, and no end.
given_nothing() { input=idle; }

# given_slowly TEXT SECONDS TEXT ..: texts with pauses between.
given_slowly() {
    write_slowly "$@" >slow &
    pids[writer]=$!
    input=slow
}

# given_by_hand: what `give` gives, up to `give_end`.
given_by_hand() {
    rm -f hand
    mkfifo hand
    exec 6<>hand
    input=hand
}

give() { printf '%b' "$1" >&6; }

# The relay has opened its input by then.
give_end() { exec 6>&-; }

write_slowly() {
    trap - EXIT
    while [ $# -gt 0 ]; do
        printf '%b' "$1"
        [ $# -eq 1 ] || nap "$2"
        shift 2 2>/dev/null || shift
    done
}

# --- relays

# start TAG WORD..: starts the program, or another one that `using` names. It writes to TAG.out and TAG.err.
start() {
    local tag="$1"
    shift
    rm -f "$tag.out" "$tag.err"
    # An input without end is no input for a journal.
    [ "$input" != /dev/zero ] || local -x UNAUDITED=yes
    begun="${EPOCHREALTIME/[.,]/}"
    "${using:-$program}" "$@" <"$input" >"$tag.out" 2>"$tag.err" 6<&- 7<&- 8<&- &
    pids[$tag]=$!
    keep_input "${pids[$tag]}" "$input"
}

# await TAG: waits for its end. `status` is what it ended with, and `took` the milliseconds since the last start.
await() {
    local pid="${pids[$1]}" last=$((SECONDS + limit))
    while kill -0 "$pid" 2>/dev/null; do
        if [ "$SECONDS" -gt "$last" ]; then
            wrong "$1 didn't end in $limit seconds"
            kill -KILL "$pid"
        fi
        nap 0.01
    done
    took=$(((${EPOCHREALTIME/[.,]/} - begun) / 1000))
    wait "$pid" 2>/dev/null
    status=$?
    unset "pids[$1]"
    keep_run "$pid" "$status" "$1.out"
}

# ended TAG STATUS OUTPUT LINE: waits for its end, and looks at its status, its output and its one line ('' for none).
ended() {
    await "$1"
    [ "$status" -eq "$2" ] || wrong "$1 ended with status $status, said $(head -c 200 "$1.err")"
    wrong_if "$(holds "$1.out" "$3")"
    if [ -n "$own" ]; then
        said "$1.err" "$4" || wrong "$1 said $(head -c 200 "$1.err")"
    fi
}

# said FILE LINE: the file is just this line, or nothing.
said() {
    if [ -n "$2" ]; then
        printf '%s\n' "$2" | cmp -s - "$1"
    else
        [ ! -s "$1" ]
    fi
}

# run STATUS OUTPUT LINE WORD..: a relay from its start to its end.
run() {
    start relay "${@:4}"
    ended relay "$1" "$2" "$3"
}

# run_case NAME STATUS INPUT OUTPUT LINE WORD..: a case of one run on an input.
run_case() {
    begin "$1"
    given "$3"
    run "$2" "$4" "$5" "${@:6}"
    finish
}

# run_to_end WORD..: a relay from its start to its end; `status` is what it ended with.
run_to_end() {
    start relay "$@"
    await relay
}

# between LEAST MOST: the last relay took so many milliseconds, or up to PATIENCE times as many as the most.
between() {
    if [ "$took" -lt "$1" ] || [ "$took" -gt $(($2 * patience)) ]; then
        wrong "it took $took ms"
    fi
}

# lives TAG: it is still there.
lives() { kill -0 "${pids[$1]}" 2>/dev/null || wrong "$1 ended early"; }

terminate() { kill -TERM "${pids[$1]}" 2>/dev/null; }
