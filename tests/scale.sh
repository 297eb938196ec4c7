#!/bin/bash
# Filters a log as docs/SCALE.md says, on several processes of this machine: by split; by GNU parallel, which cuts a stream or a file; and
# by Dask, with a scheduler and two workers on the loopback. Each way has to give the same bytes as one process. The script prints the
# times.
#
#   tests/scale.sh SYMFILT [LOG]
#
# Without LOG the script makes a log of about 100 MB with symbols of installed libraries. It needs Debian's packages parallel and python3-distributed.
set -euo pipefail
[ $# -eq 1 ] || [ $# -eq 2 ] || { echo "usage: $0 SYMFILT [LOG]" >&2; exit 2; }
symfilt=$(realpath "$1")
here=$(realpath "$(dirname "$0")")
work=$(mktemp -d)
pids=()
finish() {
    for pid in ${pids[@]+"${pids[@]}"}; do kill "$pid" 2>/dev/null || true; done
    wait
    rm -rf "$work"
}
trap finish EXIT

if [ $# -eq 2 ]; then
    log=$(realpath "$2")
else
    log=$work/log
    "$here/../bench/inputs.sh" "$work/inputs" >/dev/null
    # lines with a symbol in them, some without, and a last one that has no newline
    awk '{ printf "%08x t %s\n", NR * 37, $0; if (NR % 5 == 0) print "a line without a symbol, \"of text\" (and brackets)" }' \
        "$work/inputs/cpp.txt" "$work/inputs/rust.txt" >"$work/part"
    while [ "$(stat -c %s "$log" 2>/dev/null || echo 0)" -lt 100000000 ]; do cat "$work/part" >>"$log"; done
    printf 'the end _Z1fv' >>"$log"
fi
failed=0

timed() { # timed NAME COMMAND : the command's output has to be that of one process
    local name=$1 start
    shift
    start=$(date +%s.%N)
    "$@" >"$work/out"
    printf '%-28s %6.2f s' "$name" "$(awk -v a="$start" -v b="$(date +%s.%N)" 'BEGIN { print b - a }')"
    if [ ! -f "$work/whole" ]; then
        mv "$work/out" "$work/whole"
        echo
    elif cmp -s "$work/out" "$work/whole"; then
        echo ', the same bytes'
    else
        echo ', OTHER BYTES'
        failed=1
    fi
}

one() { "$symfilt" <"$log"; }
echo "$(stat -c %s "$log") bytes, $(wc -l <"$log") lines, $(nproc) processors"
timed 'one process' one
if ! cmp -s "$work/whole" "$log"; then :; else echo 'nothing was replaced'; exit 1; fi

pieces() {
    for piece in 1 2 3 4; do split -n l/$piece/4 "$log" | "$symfilt" >"$work/piece.$piece" & done
    wait
    cat "$work"/piece.?
}
timed 'split, 4 processes' pieces

if command -v parallel >/dev/null; then
    piped() { parallel --pipe --block 8M -k -j "$1" "$symfilt" <"$log"; }
    cut_up() { parallel --pipepart -a "$log" --block 8M -k -j "$1" "$symfilt"; }
    for jobs in 1 2 4; do
        timed "parallel --pipe -j$jobs" piped $jobs
        timed "parallel --pipepart -j$jobs" cut_up $jobs
    done
else
    echo "GNU parallel isn't installed"
fi

python=
for one_of in python3 /usr/bin/python3; do
    if "$one_of" -c 'import distributed' 2>/dev/null; then python=$one_of; break; fi
done
if [ -n "$python" ]; then
    cd "$work"
    scheduler=$("$python" -c 'import socket; s = socket.socket(); s.bind(("127.0.0.1", 0)); print(s.getsockname()[1])')
    address=tcp://127.0.0.1:$scheduler
    "$python" -m distributed.cli.dask_scheduler --host 127.0.0.1 --port "$scheduler" --no-dashboard >"$work/scheduler.log" 2>&1 &
    pids+=($!)
    for worker in 1 2; do
        "$python" -m distributed.cli.dask_worker "$address" --host 127.0.0.1 --nthreads 1 --nworkers 1 --no-dashboard \
            --local-directory "$work/worker$worker" >"$work/worker$worker.log" 2>&1 &
        pids+=($!)
    done
    "$python" -c 'import sys; from distributed import Client; Client(sys.argv[1], timeout=60).wait_for_workers(2, timeout=60)' "$address"
    timed 'Dask, two workers' "$python" "$here/../tools/symfilt_dask.py" "$address" "$log" "$symfilt"
    # pieces far smaller than a line, and one larger than the log
    head -c 20000 "$log" >"$work/few"
    "$symfilt" <"$work/few" >"$work/few.whole"
    for bytes in 1 100 100000; do
        "$python" "$here/../tools/symfilt_dask.py" "$address" "$work/few" "$symfilt" $bytes >"$work/few.out"
        cmp "$work/few.whole" "$work/few.out" || failed=1
    done
else
    echo "Dask isn't installed"
fi
[ $failed -eq 0 ] && echo ok
exit $failed
