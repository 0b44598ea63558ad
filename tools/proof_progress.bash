# Proves what one crate is made of, as many crates side by side as there are lanes, and each as soon as those below it are. It tells of
# each that ends, and what may be left. Who reads this file has `fail_in TOLD [CRATE]`, which ends all, and the file `$log`.

# The crates that one is made of, lowest first and itself last, as crates.txt names them.
declare -A below=()
order=()
put_in_order() {
    local name
    for name in ${below[$1]}; do
        if [ -n "${below[$name]+named}" ]; then put_in_order "$name"; fi
    done
    case " ${order[*]} " in *" $1 "*) ;; *) order+=("$1") ;; esac
}

# What rt has told so far: the functions of each crate that is proved, and the crate that it tells of. When the proof of each was
# seen to begin, and how many lines of the terminal tell of those that are being proved.
declare -A functions=() begun=()
crate='' shown=0

# The crates that are being proved: those below them are, and rt has begun a library of theirs, or checks the program.
running() {
    local name other
    for name in "${order[@]}"; do
        if [ -n "${functions[$name]+proved}" ]; then continue; fi
        for other in ${below[$name]}; do
            if [ -n "${below[$other]+named}" ] && [ -z "${functions[$other]+proved}" ]; then continue 2; fi
        done
        if [ "$name" = reqlock ] || { [ -d "crates/$name/out/rlib" ] && [ ! -e "crates/$name/out/rlib/stamp" ]; }; then
            echo "$name"
        fi
    done
}

# How many functions of a crate the check has kept so far.
kept() {
    local found
    shopt -s nullglob
    found=("crates/$1/out/incremental"/*/*.Lts.oantt)
    shopt -u nullglob
    echo "${#found[@]}"
}

hide_running() {
    while [ "$shown" -gt 0 ]; do
        printf '\033[A\033[K'
        shown=$((shown - 1))
    done
}

# One line for each crate that is being proved, with its functions so far; without a terminal, one as it begins.
show_running() {
    local name
    hide_running
    for name in $(running); do
        if [ -t 1 ]; then
            printf '  %-15s %4s functions so far\n' "$name" "$(kept "$name")"
            shown=$((shown + 1))
        elif [ -z "${begun[$name]+begun}" ]; then
            printf '  %-15s ..\n' "$name"
        fi
        begun[$name]=${begun[$name]-$SECONDS}
    done
}

# Takes a line of rt: "== NAME" stands above what is told of a crate once its check has ended.
take_line() {
    printf '%s\n' "$1" >>"$log"
    if [[ $1 == '== '* ]]; then
        end_crate
        crate=${1#== }
    elif [[ $1 =~ ^logic=proved\ functions=([0-9]+)\  ]]; then
        functions[$crate]=${BASH_REMATCH[1]}
    fi
}

# How large the sources of each crate are, and how large those are that were proved in this run, with the seconds that it took.
declare -A size=()
proved_size=0 proved_seconds=0

# What may be left, once two minutes of proofs were seen: the longest chain of crates that wait for one another, or all of them side by
# side, whichever is more, by the size of their sources.
left() {
    local name other cost all=0 longest=0
    declare -A chain=()
    if [ "$proved_seconds" -lt 120 ]; then return; fi
    for name in "${order[@]}"; do
        chain[$name]=0
        for other in ${below[$name]}; do
            if [ "${chain[$other]-0}" -gt "${chain[$name]}" ]; then chain[$name]=${chain[$other]}; fi
        done
        if [ -n "${functions[$name]+proved}" ]; then continue; fi
        cost=$((${size[$name]} * proved_seconds / proved_size - SECONDS + ${begun[$name]-$SECONDS}))
        cost=$((cost > 0 ? cost : 0))
        all=$((all + cost))
        chain[$name]=$((${chain[$name]} + cost))
        longest=$((longest > ${chain[$name]} ? longest : ${chain[$name]}))
    done
    all=$((all / RT_JOBS))
    longest=$(((longest > all ? longest : all) / 60))
    if [ "$longest" -gt 0 ]; then echo "; some $longest min are left"; fi
}

# Tells of a crate whose check has ended what it took.
end_crate() {
    local took
    if [ -z "$crate" ] || [ "$crate" = summary ]; then return; fi
    hide_running
    if [ -n "${functions[$crate]+proved}" ]; then
        took=$((SECONDS - ${begun[$crate]-$SECONDS}))
        proved_size=$((proved_size + ${size[$crate]}))
        proved_seconds=$((proved_seconds + took))
        printf '  %-15s %4s functions proved, %d min %02d s%s\n' "$crate" "${functions[$crate]}" $((took / 60)) $((took % 60)) "$(left)"
    elif [ -e "crates/$crate/out/rlib/stamp" ]; then
        functions[$crate]=0
        printf '  %-15s was proved before\n' "$crate"
    else
        fail_in "the proof of $crate" "$crate"
    fi
}

check_crates() {
    cd crates/reqlock
    exec rt all check --jobs "$RT_JOBS" 2>&1
}

# Proves what the program is made of.
prove() {
    local line name
    while IFS=: read -r name line; do
        below[$name]=$line
    done < <(sed -e 's/#.*//' -e '/^ *$/d' crates.txt)
    put_in_order reqlock
    for name in "${order[@]}"; do
        read -r size[$name] _ < <(du -sb "crates/$name/src")
    done
    read_lines take_line show_running check_crates
    if [ "$crate" != summary ]; then fail_in "the proof"; fi
}
