# fish completion for reqlock-adopt,
# made by tools/pages.py of what --help says and of tools/page_makers/templates/completion.fish: python3 tools/pages.py makes it again

complete -c reqlock-adopt -F
complete -c reqlock-adopt -s h -l help -d 'show this help message and exit'
complete -c reqlock-adopt -l index -r -F -d 'the snapshot of the index'
complete -c reqlock-adopt -l env -r -F -d 'the environment, as reqlock-environment prints it'
complete -c reqlock-adopt -l dir -x -a '(__fish_complete_directories)' -d 'the folder of the new history'
complete -c reqlock-adopt -l program -r -F -d 'reqlock, where it isn\'t on the PATH'
