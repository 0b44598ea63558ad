#compdef @NAME@
# zsh completion for @NAME@,
# @MADE@
@FUNCTIONS@

# Files, also behind NAME=.
_@ID@_files() {
    compset -P 1 '*='
    _files
}

_@ID@() {
    local folder=. state line
    local -a commands
    typeset -A opt_args
@ARGUMENTS@
}

_@ID@ "$@"
