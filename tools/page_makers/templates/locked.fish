
# The names that are locked. With several targets each table has its name in front.
function __@ID@_locked_names
    @NAME@ show 2>/dev/null | env LC_ALL=C awk '
        BEGIN { is_head = 1 } /^$/ { is_head = 1; next } is_head { is_head = $1 == "target"; next } { print $1 }' |
        string match -r '^[A-Za-z0-9._-]+$'
end
