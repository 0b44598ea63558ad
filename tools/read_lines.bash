# Runs a command of this shell, which may end in `exec`. Each line that it prints is given to one function, and another is called where
# two seconds pass without a line.
read_lines() {
    local take=$1 wait=$2 line rest='' ended process
    exec 3< <("$3")
    process=$!
    # (where this ends early, so does the command)
    trap 'kill '"$process"' 2>/dev/null || true' EXIT
    while true; do
        ended=0
        IFS= read -r -t 2 -u 3 line || ended=$?
        if [ "$ended" -eq 0 ]; then
            "$take" "$rest$line"
            rest=''
        elif [ "$ended" -gt 128 ]; then
            rest+=$line
            "$wait"
        else
            break
        fi
    done
    if [ -n "$rest$line" ]; then "$take" "$rest$line"; fi
    trap - EXIT
    exec 3<&-
}
