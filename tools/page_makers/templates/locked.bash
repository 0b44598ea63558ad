
# The names that are locked in a folder. With several targets each table has its name in front.
_@ID@_locked_names() {
    _@ID@_names "$1" < <(@NAME@ --dir "$2" show 2>/dev/null | LC_ALL=C awk '
        BEGIN { is_head = 1 } /^$/ { is_head = 1; next } is_head { is_head = $1 == "target"; next } { print $1 }')
}
