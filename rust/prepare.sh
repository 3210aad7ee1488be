# Sourced by the scripts beside it, which set `task` to what they do. Where something that is needed
# is missing it says so in one line and ends the script: with 0, but with 1 where CI is set.
here=$(cd "$(dirname "$0")" && pwd -P)
root=$(dirname "$here")

leave() {
    echo "the $task was not run: $1"
    [ -z "${CI:-}" ] || exit 1
    exit 0
}

command -v cargo >/dev/null || leave "there is no cargo"

# Sets VARDRAKUP_SOURCE, the folder that holds twenty-first/src, unless it is given.
need_source() {
    VARDRAKUP_SOURCE=${VARDRAKUP_SOURCE:-$root/../shared/docs/src}
    [ -d "$VARDRAKUP_SOURCE/twenty-first/src" ] ||
        leave "VARDRAKUP_SOURCE names no folder with twenty-first/src"
    export VARDRAKUP_SOURCE
}

# Has crates proved and built, as tools/build does it, unless they were since they last changed.
need_built() { # NAME...
    status=0
    "$root/tools/build" "$@" || status=$?
    case $status in
    0) ;;
    2) leave "there is no rt" ;;
    *) exit 1 ;;
    esac
}

# Sets VARDRAKUP_ARCHIVES, the folder that holds the static libraries libNAME.a of the crates named,
# and has them proved and built, unless it is given.
need_archives() { # NAME...
    [ -z "${VARDRAKUP_ARCHIVES:-}" ] || return 0
    need_built "$@"
    VARDRAKUP_ARCHIVES=$root/target/staticlib
    export VARDRAKUP_ARCHIVES
}

# One line of a table of counts: a name, ours, theirs and their ratio. Ours is - where it is not there.
row() { # NAME OURS THEIRS
    ratio=-
    [ "$2" = - ] || ratio=$(awk -v ours="$2" -v theirs="$3" 'BEGIN { printf "%.3f", ours / theirs }')
    printf '%-20s %10s %10s %7s\n' "$1" "$2" "$3" "$ratio"
}
