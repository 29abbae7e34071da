#!/usr/bin/env bash
# Runs every example of README.md, docs/ and the manual pages as it is written: what stands behind '$ ' is typed
# into one shell, and all that it prints has to be the rest of the block.
# The examples count on half a second for an answer, as a user does. A busy machine may need more, so an example that
# fails is tried again, up to three times in all.
# 'N passed, M failed' at the end; the status is 1 where one failed.
# Usage: tests/examples.sh [PROGRAM [AUDITOR [EXPLAINER [READER]]]]      (those of bin/ where none is given)
set -u

. "$(dirname "${BASH_SOURCE[0]}")/common.sh"
use_program "${1:-$here/bin/socat}"
auditor="$(realpath "${2:-$here/bin/socat-audit}")"
mkdir "$scratch/bin" "$scratch/blocks"
ln -s "$program" "$scratch/bin/socat"
ln -s "$auditor" "$scratch/bin/socat-audit"
ln -s "$(realpath "${3:-$here/bin/socat-explain}")" "$scratch/bin/socat-explain"
ln -s "$(realpath "${4:-$here/bin/socat-journal}")" "$scratch/bin/socat-journal"

# blocks FILE: takes the examples of a document apart, into NAME.title, .run and .want. In a manual page a block stands
# between .EX and .EE, and its text is unescaped.
blocks() {
    awk -v out="$scratch/blocks/" -v document="${1#"$here"/}" '
        function plain(text) {
            gsub(/\\-/, "-", text)
            gsub(/\\\(aq/, "\047", text)
            gsub(/\\\(ti/, "~", text)
            gsub(/\\&/, "", text)
            gsub(/\\e/, "\\", text)
            return text
        }
        function begin() {
            count += 1
            nth = same == title ? nth + 1 : 1
            same = title
            name = sprintf("%s%s.%03d", out, base, count)
            printf "%s: %s%s\n", document, title, (nth > 1 ? ", block " nth : "") >(name ".title")
            printf "" >(name ".run")
            printf "" >(name ".want")
            inside = 1
        }
        function end() {
            close(name ".title"); close(name ".run"); close(name ".want")
            inside = 0
        }
        BEGIN { base = document; gsub(/\//, "_", base); manual = document ~ /\.1$/ }
        !inside && /^##+ / { title = $0; sub(/^#+ /, "", title) }
        !inside && /^\.(SH|SS) / { title = plain($0); sub(/^\.S[HS] /, "", title) }
        !inside && (/^```console$/ || /^\.EX$/) { begin(); next }
        inside && (/^```$/ || /^\.EE$/) { end(); next }
        inside {
            line = manual ? plain($0) : $0
            if (line ~ /^\$ / || line ~ /^> /) print substr(line, 3) >(name ".run")
            else print line >(name ".want")
        }
    ' "$1"
}

# run_once BLOCK: runs one block in a folder of its own, and says what is wrong.
run_once() {
    local block="$1" folder status
    folder="$(mktemp -d "$scratch/run.XXXXXX")"
    ln -s "$scratch/bin" "$folder/bin"
    (
        cd "$folder" || exit 1
        PATH="$scratch/bin:$PATH" timeout 60 bash -c "$(cat "$block.run")"$'\nwait'
    ) </dev/null >"$folder.got" 2>&1
    status=$?
    if [ "$status" -eq 124 ]; then
        echo "it didn't end"
    elif ! cmp -s "$folder.got" "$block.want"; then
        echo "it printed: $(head -c 300 "$folder.got")"
    fi
}

# example BLOCK: tries one block.
example() {
    local said try
    begin "$(cat "$1.title")"
    for try in 1 2 3; do
        said="$(run_once "$1")"
        [ -n "$said" ] || break
    done
    [ "$try" -eq 1 ] || name="$name (try $try)"
    wrong_if "$said"
    finish
}

for document in "$here"/README.md "$here"/docs/EXAMPLES.md "$here"/docs/COMING_FROM_SOCAT.md "$here"/man/*.1; do
    blocks "$document"
done
for block in "$scratch"/blocks/*.run; do
    example "${block%.run}"
done
all_tried 'the tasks of docs/EXAMPLES.md' "$(grep -c '^### [0-9]' "$here/docs/EXAMPLES.md")" 31

end_cases
