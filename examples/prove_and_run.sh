# For the scripts beside this file, which set `log`: proves and builds a program, and runs it.
#
#     prove_and_run CRATE WORD..
#
# The program's lines are printed. The lines of `rt` go to the file $log, and of these the crate that is at hand is told
# on standard error, with the minutes and seconds since the script began. Where the program is built already it is only
# run. Where something fails the last lines of $log are shown.

crates=$(cd "$(dirname "${BASH_SOURCE[0]}")/../crates" && pwd)

tell_crates() {
    local line
    while IFS= read -r line; do
        printf '%s\n' "$line" >> "$log"
        case $line in
            "rt: chose --jobs "*)
                printf -- '--- %d:%02d proving %s\n' $((SECONDS / 60)) $((SECONDS % 60)) "${line##* }" >&2 ;;
        esac
    done
}

prove_and_run() {
    local crate=$1
    shift
    mkdir -p "$(dirname "$log")"
    : > "$log"
    if ! (
        set -o pipefail
        cd "$crates/$crate" && rt run -- "$@" 2>&1 >&3 | tell_crates
    ) 3>&1; then
        tail -n 20 "$log" >&2
        return 1
    fi
}

tell_how_long() {
    cat <<END
--- The first time, all sources are read, which takes some minutes, and then each crate that a program stands on is
--- proved and built, one after another: for the two programs that takes the better part of an hour. Each crate is named
--- as its turn comes. After that, what did not change is only run. The lines of rt itself go to
--- $log.
END
}
