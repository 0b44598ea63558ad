# fish completion for reqlock-environment,
# made by tools/pages.py of what --help says and of tools/page_makers/templates/completion.fish: python3 tools/pages.py makes it again

complete -c reqlock-environment -f
complete -c reqlock-environment -s h -l help -d 'show this help message and exit'
complete -c reqlock-environment -l python -r -F -d 'a version, with --platform; or an interpreter that is run'
complete -c reqlock-environment -l platform -x -a 'linux-aarch64 linux-x86_64 macos-arm64 macos-x86_64 musllinux-aarch64 musllinux-x86_64 windows-arm64 windows-x86_64' -d 'one of the platforms below'
complete -c reqlock-environment -l glibc -x -d 'glibc of that machine, not 2.28'
complete -c reqlock-environment -l musl -x -d 'musl of that machine, not 1.2'
complete -c reqlock-environment -l macos -x -d 'macOS of that machine, not 13.0'
