#!/usr/bin/python3
"""Filters a log on the workers of a Dask cluster, with the same bytes as one process gives.

    symfilt_dask.py SCHEDULER LOG [SYMFILT [BYTES]] > FILTERED

SCHEDULER is the address of the scheduler, such as tcp://127.0.0.1:8786. Each worker reads its pieces of LOG itself, so the
file and the program have to be at the same path on each machine. A piece has BYTES bytes (8 MiB), and continues to the
next newline. Debian has Dask's scheduler and workers in python3-distributed."""
import subprocess
import sys
from collections import deque

from distributed import Client

# how many pieces at a time are handed out or wait for those before them
AT_ONCE = 64

def filtered(path, start, end, symfilt):
    """One piece of the log, filtered: what a worker does."""
    with open(path, "rb") as log:
        log.seek(start)
        piece = log.read(end - start)
    return subprocess.run([symfilt], input=piece, stdout=subprocess.PIPE, check=True).stdout

def pieces(path, size):
    """Where the pieces of a log begin and end: each ends after a newline, or with the log."""
    with open(path, "rb") as log:
        length = log.seek(0, 2)
        start = 0
        while start < length:
            log.seek(min(start + size, length))
            log.readline()
            end = log.tell()
            yield start, end
            start = end

def main(scheduler, path, symfilt="symfilt", size=8 << 20):
    client = Client(scheduler)
    waiting = deque()
    for start, end in pieces(path, int(size)):
        waiting.append(client.submit(filtered, path, start, end, symfilt, pure=False))
        if len(waiting) == AT_ONCE:
            sys.stdout.buffer.write(waiting.popleft().result())
    for piece in waiting:
        sys.stdout.buffer.write(piece.result())

if __name__ == "__main__":
    if not 3 <= len(sys.argv) <= 5:
        sys.exit(__doc__.split("\n\n")[1].strip())
    main(*sys.argv[1:])
