
# The names of the lines. What files say may be no name.
function __@ID@_line_names
    test -f requirements.txt
    and env LC_ALL=C sed -n 's/^[[:space:]]*\([A-Za-z0-9][A-Za-z0-9._-]*\).*/\1/p' <requirements.txt |
        string match -r '^[A-Za-z0-9._-]+$'
end
@LOCKED@
