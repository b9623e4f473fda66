# Sourced by the shell scripts of the repository, before they do anything. The comment below the first line of a script is
# its help, and has a line `# usage: ..`. For -h or --help the script prints it and ends.

comment() {
    sed -n '2,$ { /^#/!q; s/^# \{0,1\}//; p; }' "$0"
}

# Prints the usage, and ends with status 2.
wrong_arguments() {
    comment | sed -n '/^usage:/,/^$/p' >&2
    exit 2
}

# Refuses more than $1 other arguments, and any that is not a number from 1 on.
only_numbers() {
    [ $# -le $(($1 + 1)) ] || wrong_arguments
    local number
    for number in "${@:2}"; do
        [[ $number =~ ^[1-9][0-9]{0,17}$ ]] || wrong_arguments
    done
}

case " $* " in
*" --help "* | *" -h "*)
    comment
    exit 0
    ;;
esac
