# shellcheck shell=sh
# Sourced by every command, with the command's own arguments: . "$(dirname "$(readlink -f "$0")")/command.sh"
#
# The comment at the head of a command's file is its help. -h or --help prints it and nothing else is done; an argument that the
# command does not know is refused with it, with status 2. A link to a command is the command.

command_file=$(readlink -f "$0")
root=$(dirname "$(dirname "$command_file")")
command_name=${command_file#"$root"/}

command_help() { sed -n '2,/^[^#]/s/^# \{0,1\}//p' "$command_file"; }

refuse_arguments() { # WHY
    {
        printf '%s: %s\n\n' "$command_name" "$1"
        command_help
    } >&2
    exit 2
}

at_most() { # COUNT ARGUMENT..
    most=$1
    shift
    [ $# -gt "$most" ] || return 0
    shift "$most"
    refuse_arguments "unknown argument: $1"
}

crates_only() { # ARGUMENT..
    for crate; do
        case $crate in *[!a-z0-9_]* | '') refuse_arguments "unknown argument: $crate" ;; esac
        grep -Eq "^$crate( staticlib)?:" "$root/crates.txt" || refuse_arguments "crates.txt has no crate $crate"
    done
}

numbers_only() { # ARGUMENT..
    for number; do
        case $number in *[!0-9]* | '') refuse_arguments "unknown argument: $number" ;; esac
    done
}

can_be_read() { # FILE: else says why not
    if [ -d "$1" ]; then
        why="$1 is a folder, not a file"
    elif [ ! -e "$1" ]; then
        why="there is no file $1"
    elif [ ! -r "$1" ]; then
        why="$1 may not be read (its permissions)"
    else
        return 0
    fi
    printf '%s: %s\n' "$command_name" "$why" >&2
    return 1
}

case ${1-} in
-h | --help)
    command_help
    exit 0
    ;;
esac
