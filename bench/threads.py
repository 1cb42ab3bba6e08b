#!/usr/bin/env python3
"""Runs sessions in threads, again and again, and looks for one order of the commits that explains the transcripts.

Usage: bench/threads.py PROGRAM [RUNS]. Each of 16 sessions has 40 read-write transactions, 200 statements; each stores a row of its own in one
relation and prints all its rows. Session 1 defines the relation first; a transaction before that is answered NOSUCH. Where two have stored
and both would print, one is refused, since waiting would close a circle. Outside the gate, since what is printed depends on the schedule."""
import os
import subprocess
import sys
import tempfile

SESSIONS = 16
TRANSACTIONS = 40


def script(session):
    lines = []
    if session == 1:
        lines += ["START_TRANSACTION READ_WRITE", "DEFINE RELATION A. N DATATYPE IS SIGNED WORD. END A RELATION.", "COMMIT"]
    for number in range(TRANSACTIONS):
        own = session * 100 + number
        lines += [
            "START_TRANSACTION READ_WRITE",
            f"PRINT 'transaction {own}'",
            f"STORE X IN A USING X.N = {own}; END_STORE",
            "FOR X IN A PRINT X.N END_FOR",
            "COMMIT",
        ]
    return "\n".join(lines) + "\n"


def transactions_of(text):
    """The own row and the printed lines of each transaction, in the order of the text."""
    found = []
    for line in text.splitlines():
        if line.startswith("transaction "):
            found.append((int(line.split()[1]), []))
        else:
            found[-1][1].append(line)
    return found


def said(own, lines):
    """What a transaction of an own row did: whether it stored the row, and the rows that it printed, or None where it printed none. None
    where it was answered otherwise than it may be."""
    rows = [int(line) for line in lines if not line.startswith("%")]
    refused = [line for line in lines if line.startswith("%")]
    if refused == ["%RDO-E-NOSUCH, A"] * 2 and not rows:
        return False, None
    if any(not line.startswith("%RDO-E-DEADLOCK, sessions ") for line in refused) or len(refused) > 2 or len(rows) != len(set(rows)):
        return None
    if not refused:
        return (True, set(rows)) if own in rows else None
    # the STORE was refused, or the FOR, which then printed nothing
    return (False, set(rows)) if rows else (len(refused) == 1, None)


def explain(found, left):
    """Whether one order of commits gives what was printed, and what stands in the database behind it."""
    stored, seen = set(), []
    for own, lines in found:
        did = said(own, lines)
        if did is None:
            return False
        stored |= {own} if did[0] else set()
        if did[1] is not None:
            seen.append((len(did[1]), own, did[1]))
    before = set()
    for _, own, rows in sorted(seen, key=lambda it: it[0]):
        if not before <= rows or not rows <= stored or (own in rows and own in before):
            return False
        before = rows
    # each session has its own rows before it, in the order of its script, and what was stored is there
    for _, own, rows in seen:
        behind = {own - number for number in range(1, own % 100 + 1)}
        if not (behind & stored) <= rows:
            return False
    return left == stored


def main():
    program = os.path.abspath(sys.argv[1])
    runs = int(sys.argv[2]) if len(sys.argv) > 2 else 100
    orders = set()
    with tempfile.TemporaryDirectory() as folder:
        names = [f"s{session}" for session in range(1, SESSIONS + 1)]
        for session, name in enumerate(names, 1):
            with open(os.path.join(folder, name), "w") as out:
                out.write(script(session))
        with open(os.path.join(folder, "last"), "w") as out:
            out.write("FOR X IN A PRINT X.N END_FOR\n")
        for run in range(runs):
            for name in os.listdir(folder):
                if name.startswith("PERS"):
                    os.remove(os.path.join(folder, name))
            subprocess.run([program, "NEW", "PERS"], cwd=folder, check=True)
            done = subprocess.run([program, "RDO", "PERS", *names], cwd=folder, capture_output=True, text=True)
            last = subprocess.run([program, "RDO", "PERS", "last"], cwd=folder, capture_output=True, text=True)
            if done.returncode != 0 or not explain(transactions_of(done.stdout), {int(row) for row in last.stdout.split()}):
                print(f"threads: run {run + 1}: no order of commits explains it, status {done.returncode}")
                sys.exit(1)
            orders.add(done.stdout)
    print(f"threads: {runs} runs, each explained by one order of commits; {len(orders)} different transcripts")


main()
