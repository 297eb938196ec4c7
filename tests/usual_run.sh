# Sourced by fail_calls.sh and refuse_allocations.sh, which set `symfilt` and `work`.

# usual_run NAME STATUS WORD..: runs the program on the words and on $work/text while no call is refused, leaves what it prints in
# $work/whole and $work/complaints, and ends the script where the program's status isn't STATUS
usual_run() {
    local name=$1 wanted=$2 usual=0
    shift 2
    "$symfilt" "$@" <"$work/text" >"$work/whole" 2>"$work/complaints" || usual=$?
    if [ "$usual" -ne "$wanted" ]; then
        echo "$name: status $usual, not $wanted, with nothing in its way: is $symfilt the program?" >&2
        exit 2
    fi
}
