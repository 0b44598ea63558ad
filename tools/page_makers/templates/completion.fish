# fish completion for @NAME@,
# @MADE@
@FUNCTIONS@

@LINES@
