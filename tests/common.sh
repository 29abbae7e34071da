# What the test scripts share: the program that is tried, a scratch folder, and the counts of cases.

here="$(cd "$(dirname "${BASH_SOURCE[0]}")/.." && pwd)"
passed=0
failed=0

. "$here/tests/audits.sh"

# find_program PROGRAM: `found` is its whole path. Where there is none, the script ends.
find_program() {
    case "$1" in
        /*) found="$1" ;;
        *) found="$PWD/$1" ;;
    esac
    if [ ! -x "$found" ]; then
        echo "no program at $found: run make first"
        echo "0 passed, 1 failed"
        exit 1
    fi
}

# use_program PROGRAM: takes this program, and makes the scratch folder, which goes out with the script.
use_program() {
    find_program "$1"
    program="$found"
    scratch="$(mktemp -d)" || exit 1
    trap 'rm -rf "$scratch"' EXIT
    [ -z "${AUDITOR:-}" ] || audit_runs
}

# beside PART..: where PEER names another socat, runs these parts of the same script on it as well, and counts their cases.
# Cases in which it is meant to do otherwise are left out there.
beside() {
    local peer
    [ -n "${PEER:-}" ] || return 0
    peer="$(command -v "$PEER")" || {
        report "there is a $PEER" "it isn't found"
        return 0
    }
    add_counts "$PEER: " < <(PEER='' AUDITOR='' "$here/tests/${0##*/}" "$peer" "$@" 2>&1)
}

# add_counts PREFIX: reads what a script of cases printed, adds the counts of its last line to those of this one, and
# prints each other line behind PREFIX.
add_counts() {
    local line good bad
    while IFS= read -r line; do
        case "$line" in
            *' passed, '*' failed')
                read -r good _ bad _ <<<"$line"
                passed=$((passed + good))
                failed=$((failed + bad))
                ;;
            *) echo "$1$line" ;;
        esac
    done
}

# --- cases: each begins with `begin`, ends with `finish`, and has one problem at most, the first that `wrong` names

begin() {
    name="$1"
    problem=''
    left_out=''
    before_case
}

# begin_words WORD..: a case that is named by its words.
begin_words() { begin "$(printf '%q ' "$@" | head -c 200)"; }

# wrong TEXT: names what is wrong, where nothing was before.
wrong() { [ -n "$problem" ] || problem="$1"; }

# wrong_if TEXT: a problem where there is a text.
wrong_if() { [ -z "$1" ] || wrong "$1"; }

finish() {
    after_case
    if [ -n "$left_out" ]; then
        echo "left out: $name"
    else
        report "$name" "$problem"
    fi
}

# What a script does around each of its cases.
before_case() { :; }
after_case() { :; }

# report NAME PROBLEM: a case passed where no problem is named. Where `quiet` is set only what fails is printed.
quiet=''
report() {
    if [ -z "$2" ]; then
        passed=$((passed + 1))
        [ -n "$quiet" ] || echo "ok      $1"
    else
        failed=$((failed + 1))
        echo "FAILED  $1: $2"
    fi
}

# all_tried NAME COUNT WANTED: a case that fails, unless so many were tried, and any.
all_tried() {
    [ "$2" -eq "$3" ] && [ "$2" -gt 0 ] || report "$1" "$2 cases were tried, want $3"
}

# sum_up GROUP: the counts so far.
sum_up() { echo "$1: $passed passed, $failed failed"; }

# end_cases: the counts of all; it fails where a case did.
end_cases() {
    echo "$passed passed, $failed failed"
    [ "$failed" -eq 0 ]
}

# ended_with WANTED STATUS: '' where the statuses are the same, else what is wrong.
ended_with() { [ "$1" = "$2" ] || echo "status $2, not $1"; }

# next_case: reads the next case's words into `words`: a line 'case N', and N lines with one word each. It fails where no
# case is left.
next_case() {
    local line count
    words=()
    while IFS= read -r line; do
        [[ "$line" == 'case '* ]] || continue
        count="${line#case }"
        while [ "${#words[@]}" -lt "$count" ] && IFS= read -r line; do
            words+=("$line")
        done
        return 0
    done
    return 1
}

# holds FILE TEXT: '' where the file holds just this text (for printf '%b'), else what is wrong.
holds() {
    printf '%b' "$2" >"$scratch/held"
    if [ ! -e "$1" ]; then
        echo "$1 isn't there"
    elif ! cmp -s "$1" "$scratch/held"; then
        echo "$1 holds $(head -c 60 "$1" | od -An -c | head -3)"
    fi
}

# same FILE FILE: '' where both hold the same bytes, else what is wrong.
same() {
    [ "$(cksum <"$1")" = "$(cksum <"$2")" ] || echo "$1 and $2 differ"
}
