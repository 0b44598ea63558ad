# fish completion for reqlock-check-refutation,
# made by tools/pages.py of what --help says and of tools/page_makers/templates/completion.fish: python3 tools/pages.py makes it again

complete -c reqlock-check-refutation -F
complete -c reqlock-check-refutation -s h -l help -d 'show this help message and exit'
complete -c reqlock-check-refutation -l line -x -d 'the text that `why` was given'
complete -c reqlock-check-refutation -l keep -r -F -d 'the lock, where `why` was asked with --keep-locked'
complete -c reqlock-check-refutation -l upgrade -x -d 'a name whose versions all count; may stand several times'
complete -c reqlock-check-refutation -l steps -x -d 'give up behind so many steps; else 50000000'
