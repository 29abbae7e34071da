# Standard streams that somebody else set not to wait, and terminals that hang up. The relay waits, loses nothing, and leaves
# them set as they were.

if [ -n "$python" ]; then
    mkdir "$scratch/nonblocking"
    while IFS=$'\t' read -r title fault; do
        begin "$title"
        case "$fault" in
            'left out') left_out=yes ;;
            *) wrong_if "$fault" ;;
        esac
        finish
    done < <("$python" -ES -B "$here/tests/program/nonblocking.py" "$program" "$scratch/nonblocking" ${own:+own} 2>&1)
else
    echo "skipped streams that are set not to wait: there is no python3"
fi
