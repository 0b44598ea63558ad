
# Offers those words of standard input that are names, where they begin with a text. They come from files, so the shell must
# not expand them, as compgen -W would.
_@ID@_names() {
    local LC_ALL=C name
    while read -r name; do
        case $name in
        *[!A-Za-z0-9._-]*) ;;
        "$1"*) COMPREPLY+=("$name") ;;
        esac
    done
}

# The names of the lines of a folder.
_@ID@_line_names() {
    [ ! -f "$2/requirements.txt" ] || _@ID@_names "$1" < <(
        LC_ALL=C sed -n 's/^[[:space:]]*\([A-Za-z0-9][A-Za-z0-9._-]*\).*/\1/p' <"$2/requirements.txt"
    )
}
@LOCKED@
