# fish completion for reqlock-merge,
# made by tools/pages.py of what --help says and of tools/page_makers/templates/completion.fish: python3 tools/pages.py makes it again

complete -c reqlock-merge -f
complete -c reqlock-merge -s h -l help -d 'show this help message and exit'
complete -c reqlock-merge -l index -r -F -d 'the snapshot of the index; REQLOCK_INDEX where none is given'
complete -c reqlock-merge -l dir -x -a '(__fish_complete_directories)' -d 'the folder of the files; REQLOCK_DIR, or else . where none is given'
complete -c reqlock-merge -l program -r -F -d 'reqlock, where it isn\'t on the PATH'
complete -c reqlock-merge -l dry-run -d 'save nothing; print what would be locked'
complete -c reqlock-merge -l keep-locked -d 'move no locked version that is still needed'
complete -c reqlock-merge -l ours -d 'go on with the history of this side, though the other has another'
complete -c reqlock-merge -l theirs -d 'go on with the history of the other side'
