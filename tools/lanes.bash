# How many crates are proved side by side; ./demo and ./check read it. A proof that is spread over several processors takes more
# processor time, so each has one, and as many run as there are processors and 4 GB of free memory for each.
lanes() {
    local processors memory=0 name size _
    processors=$(nproc 2>/dev/null || echo 1)
    while read -r name size _; do
        if [ "$name" = MemAvailable: ]; then memory=$((size / 4000000)); fi
    done </proc/meminfo
    if [ "$memory" -lt "$processors" ]; then processors=$memory; fi
    echo $((processors > 0 ? processors : 1))
}

RT_JOBS=${RT_JOBS:-$(lanes)}
export RT_JOBS
