# What the commands share, in the repository and installed. A command sets `name`, with which its messages begin, and `usage`; one that runs a program
# sets `programs`, the folder of the programs.
newline='
'
# A program without standard error would take the first file that it opens for it.
true >&2 || exec 2>/dev/null

# Writes a message.
tell() {
    trap '' PIPE
    printf '%s: %s\n' "$name" "$1" >&2
}

# Ends with a message and no line.
fail() {
    tell "$1"
    exit 2
}

# Writes a line, in one write.
say() {
    trap '' PIPE
    printf '%s\n' "$1" 2>/dev/null || fail 'standard output cannot be written'
}

# Ends with the usage where that is asked or the arguments are too few, too many or empty: arguments LEAST MOST "$@"
arguments() {
    least=$1
    most=$2
    shift 2
    if [ "${1-}" = --help ]; then
        say "$usage"
        exit 0
    fi
    if [ $# -lt "$least" ] || [ $# -gt "$most" ]; then
        fail "wrong number of arguments$newline$usage"
    fi
    for argument; do
        [ -n "$argument" ] || fail "an argument is empty$newline$usage"
    done
}

# Goes to a folder. What begins with `/` or `./` is a path to `cd`, and neither an option nor looked up in CDPATH.
enter() {
    case $1 in
    /*) folder=$1 ;;
    *) folder=./$1 ;;
    esac
    [ -d "$folder" ] || fail "$1: no such folder"
    cd -P "$folder" 2>/dev/null || fail "$1: this folder cannot be entered"
}

# Runs a program, which says one line, or says on standard error why it has none. Writes the line and ends with 0 for an answer, 1 for a refusal.
answer() {
    said=$(
        ended=0
        "$@" </dev/null || ended=$?
        printf 'status %s' "$ended"
    )
    line=${said%"${newline}status 0"}
    case $said in
    *"$newline"*"$newline"*) fail "${1##*/} said more than one line" ;;
    'figure '*' branch '*"$newline"'status 0' | 'simplified '*"$newline"'status 0') status=0 ;;
    'refused '*"$newline"'status 0') status=1 ;;
    'status 0') exit 2 ;;
    *) fail "${1##*/} gave no answer (${said##*"$newline"})" ;;
    esac
    say "$line"
    exit "$status"
}

# Quotes a folder: quote DIR
quote() {
    enter "$1"
    answer "$programs/desk"
}

# Simplifies the tree of a folder: simplify DIR [ALLOWANCE]
simplify() {
    enter "$1"
    shift
    answer "$programs/sales" "$@"
}

# Turns the old.tab of a folder into its tree.tab: readdress DIR
# The program does not say whether it wrote; if it did, tree.tab is another file than before. That one is kept open, so that no new file can be taken for it.
readdress() {
    enter "$1"
    exec 8<&-
    if [ -f tree.tab ]; then
        [ -r tree.tab ] || fail 'tree.tab cannot be read'
        exec 8<tree.tab
    fi
    ended=0
    said=$("$programs/readdress" 2>&1 </dev/null) || ended=$?
    [ "$ended" -eq 0 ] && [ -z "$said" ] || fail "${said:-readdress failed (status $ended)}"
    if [ -f tree.tab ] && [ ! tree.tab -ef /dev/fd/8 ]; then
        exit 0
    fi
    tell 'nothing is written: the length of old.tab is not a multiple of 16 from 16 to 8,192'
    exit 1
}
