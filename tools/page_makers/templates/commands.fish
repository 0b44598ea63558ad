
# The command that stands in the words so far; behind it, and a slash, one below it.
function __@ID@_command
    set -l words (commandline -opc)
    set words $words[2..-1]
    set -l command
    while set -q words[1]
        switch $words[1]
            case @VALUED@
                set words $words[3..-1]
            case '-*'
                set words $words[2..-1]
            case '*'
                if not set -q command[1]
                    set command $words[1]
@DEEPER@
                end
                set words $words[2..-1]
        end
    end
    set -q command[1]
    and echo $command[1]
end

function __@ID@_before
    not __@ID@_command >/dev/null
end

function __@ID@_in
    contains -- (__@ID@_command) $argv
end
