
# Offers those of some words that are names. They come from files, which may say anything.
_@ID@_names() {
    local -a names
    names=(${@:#*[^A-Za-z0-9._-]*})
    compadd -a names
}

# The names of the lines of a folder.
_@ID@_line_names() {
    [[ -f $folder/requirements.txt ]] || return
    _@ID@_names ${(f)"$(LC_ALL=C sed -n 's/^[[:space:]]*\([A-Za-z0-9][A-Za-z0-9._-]*\).*/\1/p' <$folder/requirements.txt)"}
}
@LOCKED@
