#!/usr/bin/env bash
# Asks the bash completion for the words that begin so, in a folder with a few names. 'N passed, M failed' at the end; the
# status is 1 where it offers other words.
# Usage: tests/completion.sh
set -u

. "$(dirname "${BASH_SOURCE[0]}")/common.sh"
scratch="$(mktemp -d)" || exit 1
trap 'rm -rf "$scratch"' EXIT
. "$here/completion/socat"
cd "$scratch" || exit 1
mkdir sub 'my folder'
: >file
: >'a name'
: >journal.txt

# offers LINE WORD..: what the completion offers at the end of the line is just these words.
offers() {
    local COMP_LINE="$1" COMP_POINT="${#1}" COMP_WORDS COMP_CWORD got wanted
    read -ra COMP_WORDS <<<"$1"
    [[ "$1" != *' ' ]] || COMP_WORDS+=('')
    COMP_CWORD=$((${#COMP_WORDS[@]} - 1))
    COMPREPLY=()
    begin "$COMP_LINE"
    case "$1" in
        'socat-journal '*) _socat_journal ;;
        *) _socat ;;
    esac
    got="$(printf '<%s>' "${COMPREPLY[@]}")"
    shift
    wanted="$(printf '<%s>' "$@")"
    [ "$got" = "$wanted" ] || wrong "offers $got, want $wanted"
    finish
}

offers 'socat ./file,cre' ./file,creat
offers 'socat -u ./file,unlink-' ./file,unlink-close ./file,unlink-early
offers 'socat --journal=jo' journal.txt
offers 'socat --jour' --journal=
offers 'socat OPEN:su' sub/
offers 'socat OPEN:my\ f' 'my\ folder/'
offers 'socat OPEN:a' 'a\ name'
offers 'socat "OPEN:a' 'OPEN:a name'
offers 'socat ./s' ./sub/
offers 'socat TCP-LISTEN:80,fo' 80,forever 80,fork
offers "socat 'STDIN!!STDO" 'STDIN!!STDOUT'
offers 'socat STDIO,shut-n' STDIO,shut-none STDIO,shut-null
offers 'socat -,ign' -,ignoreeof
offers 'socat STDIO UNIX-L' UNIX-L: UNIX-LISTEN:
offers 'socat-journal --t' --timeline --text
offers 'socat-journal jo' journal.txt
offers 'socat-journal --svg jo' journal.txt
offers 'socat-journal --bytes 0 r' right
offers 'socat-journal --read --hex 12 ' right left
offers 'socat-journal --bytes 0 left --re' --read
offers 'socat-journal --bytes 0 left jo' journal.txt
offers 'socat-journal --text 0 left journal.txt -u STDIN STDO' STDOUT

end_cases
