# fish completion for reqlock-hashes,
# made by tools/pages.py of what --help says and of tools/page_makers/templates/completion.fish: python3 tools/pages.py makes it again

complete -c reqlock-hashes -F
complete -c reqlock-hashes -s h -l help -d 'show this help message and exit'
