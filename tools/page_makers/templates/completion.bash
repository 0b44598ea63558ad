# bash completion for @NAME@,
# @MADE@
@FUNCTIONS@

# Offers what the shell itself finds. Said to be files, a name with a space or a sign of the shell's is quoted by it.
_@ID@_found() {
    compopt -o filenames 2>/dev/null
    mapfile -t -O "${#COMPREPLY[@]}" COMPREPLY < <(compgen "$@")
}

# Files, also behind NAME=.
_@ID@_files() {
    local name=""
    case $1 in
    *=*) name=${1%%=*}= ;;
    esac
    _@ID@_found -P "$name" -f -- "${1#"$name"}"
}

_@ID@_folders() {
    _@ID@_found -d -- "$1"
}

_@ID@() {
    local word=${COMP_WORDS[COMP_CWORD]} last=$((COMP_CWORD - 1)) is_behind=false
    local place command="" given=0 folder=. before words="" commands="" kind=""
    COMPREPLY=()
    # (bash takes NAME=FILE for three words)
    if [ "$word" = = ]; then
        word="" is_behind=true
    elif [ "${COMP_WORDS[last]}" = = ]; then
        ((last--))
        is_behind=true
    fi
    before=${COMP_WORDS[last]}
    for ((place = 1; place < COMP_CWORD; place++)); do
        case ${COMP_WORDS[place]} in
@PLACES@
        esac
    done
    # what stands behind an option
    case $command,$before,$word in
    *,*,-*) ;;
@BEHIND@
    *,-*,*) ;;
    *) ! $is_behind || kind=files ;;
    esac
    # else the options, and what stands behind the command
    if [ -z "$kind$words" ]; then
        case $command in
@OPTIONS@
        esac
        case $command,$given in
@WORDS@
        esac
    fi
    case $kind,$word in
    files,-* | folders,-*) kind="" ;;
    files,* | folders,*) words="" ;;
    esac
    mapfile -t COMPREPLY < <(compgen -W "$words $commands" -- "$word")
    [ -z "$kind" ] || "_@ID@_$kind" "$word" "$folder"
}

complete -F _@ID@ @NAME@
