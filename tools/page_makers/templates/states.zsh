@FOLDER@
case $state in
command)
    commands=(
@COMMANDS@
    )
    _describe command commands
@FILES@
    ;;
words)
    case $line[1] in
@ARMS@
    esac
    ;;
esac
