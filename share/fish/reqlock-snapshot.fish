# fish completion for reqlock-snapshot,
# made by tools/pages.py of what --help says and of tools/page_makers/templates/completion.fish: python3 tools/pages.py makes it again

# The command that stands in the words so far; behind it, and a slash, one below it.
function __reqlock_snapshot_command
    set -l words (commandline -opc)
    set words $words[2..-1]
    set -l command
    while set -q words[1]
        switch $words[1]
            case --output --base-url --for --env --limit --index --only --constraints --keep --newest --exclude-newer --jobs --timeout --retries --cache
                set words $words[3..-1]
            case '-*'
                set words $words[2..-1]
            case '*'
                if not set -q command[1]
                    set command $words[1]
                end
                set words $words[2..-1]
        end
    end
    set -q command[1]
    and echo $command[1]
end

function __reqlock_snapshot_before
    not __reqlock_snapshot_command >/dev/null
end

function __reqlock_snapshot_in
    contains -- (__reqlock_snapshot_command) $argv
end

complete -c reqlock-snapshot -f
complete -c reqlock-snapshot -n __reqlock_snapshot_before -a simple -d 'Make a snapshot, the index that reqlock locks from, of a package index that has the Simple API'
complete -c reqlock-snapshot -n __reqlock_snapshot_before -a again -d 'Make a snapshot again, in its place: of the same indexes, for the same environments and by the same options, as it tells itself'
complete -c reqlock-snapshot -n __reqlock_snapshot_before -a '(__fish_complete_directories)'
complete -c reqlock-snapshot -s h -l help -d 'show this help message and exit'
complete -c reqlock-snapshot -n '__reqlock_snapshot_before; or __reqlock_snapshot_in simple' -l output -r -F -d 'write the snapshot to FILE, not to standard output'
complete -c reqlock-snapshot -n __reqlock_snapshot_before -l base-url -x -d 'where the folder with its archives will be served'
complete -c reqlock-snapshot -n __reqlock_snapshot_before -l for -r -F -d 'a requirements file: packages that it leads to are named where they are absent'
complete -c reqlock-snapshot -n __reqlock_snapshot_before -l env -r -F -d 'an environment: what no environment needs isn\'t named as absent'
complete -c reqlock-snapshot -n __reqlock_snapshot_before -l assume-no-dependencies -d 'keep a release whose dependencies no document tells, as if it had none'
complete -c reqlock-snapshot -l limit -x -d 'take more of something, or less: the limits stand below'
complete -c reqlock-snapshot -n '__reqlock_snapshot_in simple' -l index -x -d 'an index for names that those before it don\'t have'
complete -c reqlock-snapshot -n '__reqlock_snapshot_in simple' -l only -x -d 'an index that is asked for NAME alone, in which * stands for any text; no other is asked for that'
complete -c reqlock-snapshot -n '__reqlock_snapshot_in simple again' -l for -r -F -d 'a requirements file to follow'
complete -c reqlock-snapshot -n '__reqlock_snapshot_in simple again' -l env -r -F -d 'an environment, as reqlock-environment prints it; may stand several times'
complete -c reqlock-snapshot -n '__reqlock_snapshot_in simple again' -l constraints -r -F -d 'leave out releases that aren\'t within the lines of FILE; or, where FILE is a lock, other versions than it has'
complete -c reqlock-snapshot -n '__reqlock_snapshot_in simple again' -l keep -r -F -d 'a pylock.toml whose releases stay, where an environment takes them; may stand several times'
complete -c reqlock-snapshot -n '__reqlock_snapshot_in simple' -l any-platform -d 'keep also what an environment takes no file of'
complete -c reqlock-snapshot -n '__reqlock_snapshot_in simple' -l only-binary -d 'leave out sdists'
complete -c reqlock-snapshot -n '__reqlock_snapshot_in simple' -l no-pre -d 'leave out pre-releases'
complete -c reqlock-snapshot -n '__reqlock_snapshot_in simple' -l newest -x -d 'the newest N releases of a package, and as many pre-releases'
complete -c reqlock-snapshot -n '__reqlock_snapshot_in simple' -l exclude-newer -x -d 'files that were uploaded on that day in UTC, or at that time, at the latest'
complete -c reqlock-snapshot -n '__reqlock_snapshot_in simple' -l assume-no-dependencies -d 'keep a release that has only an sdist which doesn\'t tell all its dependencies, with those that it lists'
complete -c reqlock-snapshot -n '__reqlock_snapshot_in simple again' -l jobs -x -d 'requests at the same time; 32'
complete -c reqlock-snapshot -n '__reqlock_snapshot_in simple again' -l timeout -x -d 'longest wait for an answer; 30'
complete -c reqlock-snapshot -n '__reqlock_snapshot_in simple again' -l retries -x -d 'how often a request is tried again; 5'
complete -c reqlock-snapshot -n '__reqlock_snapshot_in simple again' -l cache -x -a '(__fish_complete_directories)' -d 'what is fetched is kept in DIR; ~/.cache/reqlock'
complete -c reqlock-snapshot -n '__reqlock_snapshot_in simple again' -l refresh -d 'ask also for pages that are said to be fresh yet'
complete -c reqlock-snapshot -n '__reqlock_snapshot_in simple again' -l offline -d 'ask nobody, and take all from the cache'
complete -c reqlock-snapshot -n '__reqlock_snapshot_in again' -l output -r -F -d 'the snapshot that is made again, in its place'
