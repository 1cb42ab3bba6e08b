#!/usr/bin/env python3
"""How much memory the opening of a large database takes: `bench/opening.py PROGRAM [SLOTS]`.

A database of 65,536 pages an area has an after-image journal of 262,144 slots, which transactions of ten thousand rows fill, up to SLOTS (260,000).
Then it is opened by a script without statements, whole, and again after the program was killed amid a transaction, which opening has to undo. Told
are the greatest size of the process and the seconds of each opening, and that of a database that was just made. Outside the gate.
"""
import os
import resource
import shutil
import subprocess
import sys
import tempfile
import time

ROWS = 10000
LIMIT = 64

TABLE = """START_TRANSACTION READ_WRITE
DEFINE RELATION R. K DATATYPE IS SIGNED LONGWORD. END R RELATION.
COMMIT
"""


def stores(first, end):
    """A transaction that stores so many rows."""
    rows = [f"STORE X IN R USING X.K = {first + row}; END_STORE" for row in range(ROWS)]
    return "\n".join(["START_TRANSACTION READ_WRITE", *rows, end]) + "\n"


def put(folder, name, text):
    with open(os.path.join(folder, name), "w", encoding="ascii") as it:
        it.write(text)


def run(folder, *words):
    """The seconds and the greatest size, in MB, of a process."""
    start = time.perf_counter()
    child = subprocess.Popen(words, cwd=folder, stdout=subprocess.DEVNULL, stderr=subprocess.PIPE)
    _, status, used = os.wait4(child.pid, 0)
    if os.waitstatus_to_exitcode(status):
        sys.exit(f"{' '.join(words)} ended with {os.waitstatus_to_exitcode(status)}")
    return time.perf_counter() - start, used.ru_maxrss / 1024


def kill_amid(program, folder, seconds):
    child = subprocess.Popen([program, "RDO", "BIG", "more"], cwd=folder, stdout=subprocess.DEVNULL)
    time.sleep(seconds)
    child.kill()
    child.wait()


def tell(what, took):
    print(f"{what:44}{took[0]:8.2f} s {took[1]:8.1f} MB")
    return took[1]


def main():
    program, slots = os.path.abspath(sys.argv[1]), int(sys.argv[2]) if len(sys.argv) > 2 else 260000
    folder = tempfile.mkdtemp(prefix="opening")
    try:
        put(folder, "none", "\n")
        put(folder, "table", TABLE)
        run(folder, program, "NEW", "--PAGES=65536", "--SNAP=65536", "--RUJ=65535", "--AIJ=262144", "BIG")
        sizes = [tell("just made", run(folder, program, "RDO", "BIG", "none"))]
        run(folder, program, "RDO", "BIG", "table")
        took = 0.0
        for first in range(0, slots - ROWS, ROWS):
            put(folder, "more", stores(first, "COMMIT"))
            took = run(folder, program, "RDO", "BIG", "more")[0]
        files = sum(os.stat(os.path.join(folder, name)).st_size for name in os.listdir(folder))
        print(f"the files have {files / 1048576:.0f} MB")
        sizes.append(tell(f"a journal of {slots} slots", run(folder, program, "RDO", "BIG", "none")))
        put(folder, "more", stores(slots, "ROLLBACK"))
        kill_amid(program, folder, 0.7 * took)
        sizes.append(tell("the same, and a transaction to be undone", run(folder, program, "RDO", "BIG", "none")))
    finally:
        shutil.rmtree(folder)
    sys.exit(max(sizes) >= LIMIT)


main()
