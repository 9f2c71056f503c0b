# What the scripts of this folder share. Each reads this file by its full name, and has a function `usage` that prints how to use
# it.

# A write to a closed pipe then fails and can be told; otherwise it would end the script without a word.
trap '' PIPE

name=$(basename "$0")
home=$(dirname "$(dirname "${BASH_SOURCE[0]}")")

# failed TEXT: says what failed, and ends with status 2
failed() {
    printf '%s: %s\n' "$name" "$1" >&2
    exit 2
}

# wrong_words: tells how to use the script, and ends with status 2
wrong_words() {
    usage >&2
    exit 2
}

# help_asked WORD..: if the first word asks for help, tells how to use the script, and ends
help_asked() {
    case ${1-} in
    -h | --help)
        usage || exit 2
        exit 0
        ;;
    esac
}

# program NAME: its path, in `program`
program() {
    program=$home/crates/$1/out/$1
    [ -x "$program" ] || failed "$program is not built: 'tests/prove $1' in $home builds it"
}

# input WORD..: standard input is the file that the one word names, or stays if there is none or it is '-'
input() {
    [ $# -le 1 ] || wrong_words
    case ${1--} in
    -) return ;;
    -* | '') wrong_words ;;
    esac
    [ -e "$1" ] || failed "cannot read $1: there is no such file"
    [ ! -d "$1" ] || failed "cannot read $1: it is a folder"
    [ -r "$1" ] || failed "cannot read $1: it may not be read"
    exec <"$1" || exit 2
}

# tell TEXT: TEXT on standard output; where it cannot be written, `reason` has why
tell() {
    { reason=$(printf '%s\n' "$1" 2>&1 >&3 3>&-); } 3>&1 && return
    reason=${reason##*: }
    return 1
}
