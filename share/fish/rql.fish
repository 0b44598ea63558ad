# fish completion for rql,
# made by tools/pages.py of what --help says and of tools/page_makers/templates/completion.fish: python3 tools/pages.py makes it again

# The command that stands in the words so far; behind it, and a slash, one below it.
function __rql_command
    set -l words (commandline -opc)
    set words $words[2..-1]
    set -l command
    while set -q words[1]
        switch $words[1]
            case -C --timeout --retries --program --index --python --platform --from --pins --venv --target --keep
                set words $words[3..-1]
            case '-*'
                set words $words[2..-1]
            case '*'
                if not set -q command[1]
                    set command $words[1]
                else if contains -- $command[1] env
                    set command $command[1]/$words[1]
                    break
                end
                set words $words[2..-1]
        end
    end
    set -q command[1]
    and echo $command[1]
end

function __rql_before
    not __rql_command >/dev/null
end

function __rql_in
    contains -- (__rql_command) $argv
end

# The names of the lines. What files say may be no name.
function __rql_line_names
    test -f requirements.txt
    and env LC_ALL=C sed -n 's/^[[:space:]]*\([A-Za-z0-9][A-Za-z0-9._-]*\).*/\1/p' <requirements.txt |
        string match -r '^[A-Za-z0-9._-]+$'
end

complete -c rql -f
complete -c rql -n __rql_before -a init -d 'begin: settings, environments, index and lock'
complete -c rql -n __rql_before -a add -d 'put lines behind the others: all or none'
complete -c rql -n __rql_before -a remove -d 'take the lines of names out: all or none'
complete -c rql -n __rql_before -a set -d 'put texts in the place of the lines of their names: all or none'
complete -c rql -n __rql_before -a upgrade -d 'lock again without the locked versions of these names'
complete -c rql -n __rql_before -a constrain -d 'put other specifiers in the line of a name'
complete -c rql -n __rql_before -a relock -d 'lock again over a fresh index; versions stay where they can'
complete -c rql -n __rql_before -a retarget -d 'lock for the environments as the settings have them, whoever changed these'
complete -c rql -n __rql_before -a lock -d 'have the lock fit the lines again, whoever changed them'
complete -c rql -n __rql_before -a sync -d 'have a virtual environment hold exactly what is locked'
complete -c rql -n __rql_before -a check -d 'tell whether settings, lines and locks belong together'
complete -c rql -n __rql_before -a index -d 'make the index anew, with these names too'
complete -c rql -n __rql_before -a env -d 'add, set, remove or list the environments that are locked for'
complete -c rql -n __rql_before -a undo -d 'go back to the state before the last edit'
complete -c rql -n __rql_before -a redo -d 'go on to the state that an undo left'
complete -c rql -n __rql_before -a forget -d 'take the first steps out of the history; the present state stays'
complete -c rql -n __rql_before -a show -d 'print the lock as a table, with what asks for each entry'
complete -c rql -n __rql_before -a tree -d 'print the lock below the lines that ask for it'
complete -c rql -n __rql_before -a outdated -d 'print which locked releases have newer ones, and who holds them back'
complete -c rql -n __rql_before -a why -d 'say why a line can\'t be locked'
complete -c rql -n __rql_before -a log -d 'print the history, a line for each edit'
complete -c rql -n __rql_before -a diff -d 'print what changed between two places of the history'
complete -c rql -n __rql_before -a export -d 'print the lock in the form of another tool'
complete -c rql -n __rql_before -a skipped -d 'print which releases of the index are left out, and why'
complete -c rql -n __rql_before -a fleet -d 'ask the same of many folders'
complete -c rql -n __rql_before -a merge -d 'lock what git merged, and keep the pins of both sides'
complete -c rql -n __rql_before -a check-refutation -d 'check a proof that nothing can be locked'
complete -c rql -n '__rql_in env' -a add -d 'lock for one environment more'
complete -c rql -n '__rql_in env' -a set -d 'lock for another Python, or another platform, in the place of one'
complete -c rql -n '__rql_in env' -a remove -d 'lock for one environment less'
complete -c rql -n '__rql_in env' -a list -d 'print the environments'
complete -c rql -n '__rql_in remove set upgrade constrain' -a '(__rql_line_names)'
complete -c rql -n '__rql_in undo redo forget show tree outdated why log diff export skipped fleet merge check-refutation' -F
complete -c rql -s h -l help -d 'show this help message and exit'
complete -c rql -n __rql_before -s C -x -a '(__fish_complete_directories)' -d 'look for the project\'s settings in DIR and above'
complete -c rql -n __rql_before -l offline -d 'ask nobody: take all from the cache'
complete -c rql -n __rql_before -l refresh -d 'ask also for pages that are said to be fresh yet'
complete -c rql -n __rql_before -s v -l verbose -d 'print each call of reqlock so that it can be typed'
complete -c rql -n __rql_before -s q -l quiet -d 'tell nothing of what the index is asked; reqlock tells nothing beside its answer'
complete -c rql -n __rql_before -l timeout -x -d 'longest wait for an answer of a server; 30, and of pip its own'
complete -c rql -n __rql_before -l retries -x -d 'how often a request is tried again; 5, and by pip as it has it'
complete -c rql -n __rql_before -l program -r -F -d 'reqlock, where it isn\'t on the PATH'
complete -c rql -n '__rql_in init' -l index -x -d 'an index, in order; else pip\'s'
complete -c rql -n '__rql_in init' -l python -x -d 'the version of Python, as 3.11; this one where none is given'
complete -c rql -n '__rql_in init' -l platform -x -d 'a platform, as linux-x86_64; this one else'
complete -c rql -n '__rql_in init' -l from -r -F -d 'a lock whose pins are kept'
complete -c rql -n '__rql_in add remove set upgrade constrain relock retarget env/add env/set env/remove' -l keep-locked -d 'move no locked version that is still needed'
complete -c rql -n '__rql_in add remove set upgrade constrain relock retarget env/add env/set env/remove' -l dry-run -d 'save nothing; print what would change'
complete -c rql -n '__rql_in retarget env/add env/set env/remove' -l pins -r -F -d 'a lock, or lines, whose versions a new target begins with; or NAME=FILE'
complete -c rql -n '__rql_in lock' -l check -d 'change nothing; the status is 1 where it would'
complete -c rql -n '__rql_in sync' -l venv -x -a '(__fish_complete_directories)' -d 'the environment; else VIRTUAL_ENV, else .venv'
complete -c rql -n '__rql_in sync' -l target -x -d 'the target, where several fit'
complete -c rql -n '__rql_in sync' -l keep -x -d 'a package that stays though it isn\'t locked'
complete -c rql -n '__rql_in sync' -l exact -d 'take out folders and checkouts too'
complete -c rql -n '__rql_in sync' -l dry-run -d 'change nothing; print what would change'
complete -c rql -n '__rql_in check' -l current -d 'tell also whether a relock over today\'s index changes something'
complete -c rql -n '__rql_in check' -l json -d 'print JSON'
complete -c rql -n '__rql_in env/add' -l python -x -d 'the version of Python, as 3.11; else that of the first environment'
complete -c rql -n '__rql_in env/add' -l platform -x -d 'the platform, as linux-x86_64; else the first whose name begins so'
complete -c rql -n '__rql_in env/set' -l python -x -d 'the version of Python, as 3.11; else it stays'
complete -c rql -n '__rql_in env/set' -l platform -x -d 'the platform, as linux-x86_64; else it stays'
