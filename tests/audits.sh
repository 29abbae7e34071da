# The audit of runs. Where AUDITOR names an auditor, each command is run with a journal, which the program that is tried
# gets as its first word from a script in its place; what passed is kept beside it. tests/audited.sh judges them at the
# end.

# What is kept of each run, by its process.
audits=''

# audit_runs: takes the script in place of the program.
audit_runs() {
    audits="$scratch/audits"
    mkdir -p "$audits/peers" "$audits/inputs"
    export AUDITS="$audits" AUDITED="$program" AUDITED_CASE=''
    program="$scratch/audited"
    cat >"$program" <<'EOF'
#!/usr/bin/env bash
case "${UNAUDITED:-}${1:-}" in
    yes* | --journal=*) exec "$AUDITED" "$@" ;;
esac
kept="$AUDITS/$$"
mkdir -p "$kept"
printf '%s' "$AUDITED_CASE" >"$kept/case"
printf '%s\0' "$@" >"$kept/words"
printf '%s' "$$" >"$AUDITS/last"
exec "$AUDITED" "--journal=$kept/journal" "$@"
EOF
    chmod 755 "$program"
}

# audited_case NAME: the runs and peers from here on are of this case.
audited_case() { [ -z "$audits" ] || AUDITED_CASE="$1"; }

# unaudited COMMAND..: runs of the command, which pass too much for a journal, have none.
unaudited() {
    export UNAUDITED=yes
    "$@"
    unset UNAUDITED
}

# keep_input PID FILE: keeps what the run of this process is given, where that is a file.
keep_input() {
    [ -z "$audits" ] || [ -n "${UNAUDITED:-}" ] || [ ! -f "$2" ] || cp "$2" "$audits/inputs/$1"
}

# keep_run PID STATUS OUTPUT: keeps what the run of this process was given and gave. Where it was another socat, it counts
# as a peer.
keep_run() {
    [ -n "$audits" ] && [ -z "${UNAUDITED:-}" ] || return 0
    local kept="$audits/$1" input="$audits/inputs/$1"
    if [ -d "$kept" ]; then
        printf '%s' "$2" >"$kept/status"
        [ ! -f "$input" ] || mv "$input" "$kept/input"
        [ ! -f "$3" ] || cp "$3" "$kept/output"
        [ ! -d files ] || cp -R files "$kept/files" 2>/dev/null
    elif [ -f "$input" ] && [ -f "$3" ]; then
        mkdir -p "$audits/peers/$1"
        printf '%s' "$AUDITED_CASE" >"$audits/peers/$1/case"
        mv "$input" "$audits/peers/$1/sent"
        cp "$3" "$audits/peers/$1/got"
    fi
    return 0
}

# forget_last: of the runs up to here none is the last.
forget_last() { [ -z "$audits" ] || rm -f "$audits/last"; }

# keep_last STATUS INPUT OUTPUT: the same for the last run that began.
keep_last() {
    local last
    [ -n "$audits" ] && [ -s "$audits/last" ] || return 0
    last="$(<"$audits/last")"
    rm -f "$audits/last"
    keep_input "$last" "$2"
    keep_run "$last" "$1" "$3"
}

# judge_runs: judges what was kept, and counts it.
judge_runs() {
    [ -n "$audits" ] || return 0
    local said last
    said="$("${python:-python3}" "$here/tests/judge.py" "$AUDITOR" "$audits")"
    echo "$said" | grep -v '^judged '
    last="$(echo "$said" | grep '^judged ' | tail -1)"
    set -- $last
    echo "$last"
    passed=$((passed + ${2:-0}))
    failed=$((failed + ${4:-1}))
}
