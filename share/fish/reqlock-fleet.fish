# fish completion for reqlock-fleet,
# made by tools/pages.py of what --help says and of tools/page_makers/templates/completion.fish: python3 tools/pages.py makes it again

complete -c reqlock-fleet -f
complete -c reqlock-fleet -a '(__fish_complete_directories)'
complete -c reqlock-fleet -s h -l help -d 'show this help message and exit'
complete -c reqlock-fleet -l index -r -F -d 'the snapshot of the index; else the value of REQLOCK_INDEX'
complete -c reqlock-fleet -l env -r -F -d 'an environment, for init and retarget'
complete -c reqlock-fleet -l jobs -x -d 'calls at once; else one for each processor, or thread of a worker'
complete -c reqlock-fleet -l explain -d 'ask why of each folder without a solution'
complete -c reqlock-fleet -l json -d 'print JSON, as docs/JSON.md tells it'
complete -c reqlock-fleet -l dask -x -d 'have the workers of this scheduler make the calls'
complete -c reqlock-fleet -l program -r -F -d 'reqlock, where it isn\'t on the PATH'
