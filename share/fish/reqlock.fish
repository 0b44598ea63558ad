# fish completion for reqlock,
# made by tools/pages.py of what --help says and of tools/page_makers/templates/completion.fish: python3 tools/pages.py makes it again

# The command that stands in the words so far; behind it, and a slash, one below it.
function __reqlock_command
    set -l words (commandline -opc)
    set words $words[2..-1]
    set -l command
    while set -q words[1]
        switch $words[1]
            case --dir --index --env --color --pins --was --line --before --keep --format --target --covers --constrain --remove --not
                set words $words[3..-1]
            case '-*'
                set words $words[2..-1]
            case '*'
                if not set -q command[1]
                    set command $words[1]
                end
                set words $words[2..-1]
        end
    end
    set -q command[1]
    and echo $command[1]
end

function __reqlock_before
    not __reqlock_command >/dev/null
end

function __reqlock_in
    contains -- (__reqlock_command) $argv
end

# The names of the lines. What files say may be no name.
function __reqlock_line_names
    test -f requirements.txt
    and env LC_ALL=C sed -n 's/^[[:space:]]*\([A-Za-z0-9][A-Za-z0-9._-]*\).*/\1/p' <requirements.txt |
        string match -r '^[A-Za-z0-9._-]+$'
end

# The names that are locked. With several targets each table has its name in front.
function __reqlock_locked_names
    reqlock show 2>/dev/null | env LC_ALL=C awk '
        BEGIN { is_head = 1 } /^$/ { is_head = 1; next } is_head { is_head = $1 == "target"; next } { print $1 }' |
        string match -r '^[A-Za-z0-9._-]+$'
end

complete -c reqlock -f
complete -c reqlock -n __reqlock_before -a init -d 'Lock the file and begin a new history'
complete -c reqlock -n __reqlock_before -a add -d 'Put a line behind the others'
complete -c reqlock -n __reqlock_before -a remove -d 'Take the line of a name out'
complete -c reqlock -n __reqlock_before -a constrain -d 'Put other specifiers in the line of a name'
complete -c reqlock -n __reqlock_before -a upgrade -d 'Lock again without the locked versions of these names'
complete -c reqlock -n __reqlock_before -a relock -d 'Lock again over the index at hand; versions stay where they can'
complete -c reqlock -n __reqlock_before -a replace -d 'Put other lines in the place of those of the file; versions stay where they can'
complete -c reqlock -n __reqlock_before -a retarget -d 'Lock for other environments in the place of the present ones; versions stay where they can'
complete -c reqlock -n __reqlock_before -a undo -d 'Go back to the state before the last edit'
complete -c reqlock -n __reqlock_before -a redo -d 'Go on to the state that an undo left'
complete -c reqlock -n __reqlock_before -a forget -d 'Take the first steps out of the history; the present state stays'
complete -c reqlock -n __reqlock_before -a batch -d 'Do the commands of standard input, and save at its end'
complete -c reqlock -n __reqlock_before -a try -d 'Do the commands of standard input on a new history; save nothing'
complete -c reqlock -n __reqlock_before -a show -d 'Print the lock as a table, with what asks for each entry'
complete -c reqlock -n __reqlock_before -a log -d 'Print the history, a line for each edit'
complete -c reqlock -n __reqlock_before -a diff -d 'Print what changed between two places of the history'
complete -c reqlock -n __reqlock_before -a check -d 'Tell whether requirements, locks and journal belong together; change nothing'
complete -c reqlock -n __reqlock_before -a outdated -d 'Print which locked releases have newer ones, and who holds them back'
complete -c reqlock -n __reqlock_before -a export -d 'Print the lock in the form of another tool'
complete -c reqlock -n __reqlock_before -a skipped -d 'Print which releases of the index are left out, and why'
complete -c reqlock -n __reqlock_before -a why -d 'Print a proof that nothing can be locked with this line, where that is so'
complete -c reqlock -n __reqlock_before -a help -d 'Print this message or the help of the given subcommand(s)'
complete -c reqlock -n '__reqlock_in remove constrain' -a '(__reqlock_line_names)'
complete -c reqlock -n '__reqlock_in upgrade show' -a '(__reqlock_locked_names)'
complete -c reqlock -n '__reqlock_in replace' -F
complete -c reqlock -n '__reqlock_in help' -a 'init add remove constrain upgrade relock replace retarget undo redo forget batch try show log diff check outdated export skipped why help'
complete -c reqlock -n '__reqlock_before; or __reqlock_in init add remove constrain upgrade relock replace retarget undo redo forget batch try show log diff check outdated export why' -l dir -x -a '(__fish_complete_directories)' -d 'The folder of requirements.txt'
complete -c reqlock -n '__reqlock_before; or __reqlock_in init add remove constrain upgrade relock replace retarget batch try show check outdated export skipped why' -l index -r -F -d 'The snapshot of the index'
complete -c reqlock -n '__reqlock_before; or __reqlock_in init retarget try why' -l env -r -F -d 'The environment that a lock is for; or NAME=FILE'
complete -c reqlock -n '__reqlock_before; or __reqlock_in add remove constrain upgrade relock replace retarget batch why' -l keep-locked -d 'Move no locked version that is still needed, but for names to upgrade'
complete -c reqlock -n '__reqlock_before; or __reqlock_in init add remove constrain upgrade relock replace retarget undo redo forget' -l dry-run -d 'Save nothing; print what would change'
complete -c reqlock -n '__reqlock_before; or __reqlock_in show log diff check outdated' -l json -d 'Print JSON'
complete -c reqlock -s v -l verbose -d 'Tell what changed, or what is known of a refusal'
complete -c reqlock -s q -l quiet -d 'Tell nothing beside the answer'
complete -c reqlock -l color -x -a 'auto always never' -d 'Use colors: auto, always or never'
complete -c reqlock -s h -l help -d 'Print help'
complete -c reqlock -n __reqlock_before -s V -l version -d 'Print version'
complete -c reqlock -n '__reqlock_in init replace retarget why' -l pins -r -F -d 'Keep the versions of this lock, or of these lines; or NAME=FILE'
complete -c reqlock -n '__reqlock_in add remove constrain upgrade relock replace retarget' -l if-needed -d 'Answer same, and save nothing, where only the index would change'
complete -c reqlock -n '__reqlock_in replace why' -l was -r -F -d 'Take the lines of the file in the folder; OLD is what it was'
complete -c reqlock -n '__reqlock_in replace why' -l line -x -a '(__reqlock_line_names)' -d 'Put the text in the place of the line of the name'
complete -c reqlock -n '__reqlock_in forget' -l before -x -d 'Begin the history at this place'
complete -c reqlock -n '__reqlock_in forget' -l keep -x -d 'Begin it so many states before the present one'
complete -c reqlock -n '__reqlock_in batch' -l all-or-none -d 'Save nothing where a command is refused, and end with its status'
complete -c reqlock -n '__reqlock_in show' -l tree -d 'Print the entries below the lines that ask for them'
complete -c reqlock -n '__reqlock_in log' -l long -d 'Print each entry that a step changed on a line of its own'
complete -c reqlock -n '__reqlock_in check' -l current -d 'Tell whether a relock over the index would change an entry'
complete -c reqlock -n '__reqlock_in export' -l format -x -a 'hashes dot pylock' -d 'hashes, dot or pylock'
complete -c reqlock -n '__reqlock_in export' -l target -x -d 'The target whose lock it is'
complete -c reqlock -n '__reqlock_in export' -l covers -r -F -d 'With --format pylock, tell which targets hold in these environments'
complete -c reqlock -n '__reqlock_in why' -l explain -d 'Tell it in sentences'
complete -c reqlock -n '__reqlock_in why' -l long -d 'With --explain, leave nothing out'
complete -c reqlock -n '__reqlock_in why' -l init -d 'Ask about a first lock, for the environments given'
complete -c reqlock -n '__reqlock_in why' -l constrain -x -a '(__reqlock_line_names)' -d 'Ask about other specifiers in the line of a name'
complete -c reqlock -n '__reqlock_in why' -l upgrade -x -a '(__reqlock_locked_names)' -d 'Ask about an upgrade of these names; without any, of all'
complete -c reqlock -n '__reqlock_in why' -l remove -x -a '(__reqlock_line_names)' -d 'Ask about the removal of the line of a name'
complete -c reqlock -n '__reqlock_in why' -l not -x -a '(__reqlock_locked_names)' -d 'Ask why the lock lacks this version; without one, the newest'
complete -c reqlock -n '__reqlock_in why' -l replace -r -F -d 'Ask about other lines, those of NEW'
complete -c reqlock -n '__reqlock_in why' -l retarget -d 'Ask about the environments given in the place of the present ones'
