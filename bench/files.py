"""Compares rdb over files with the sqlite3 shell over a file, on the same statements: `bench/files.py RDB [--small] [WORK ..]`.

Both begin each round with a copy of the same prepared database. A work's time is that of the whole process less that of one which only opens and
closes; the least of ROUNDS counts, by the clock and of the processor, which other work on the machine disturbs less. `--small` does a twentieth,
to see whether it runs. What both write has to be the same.
"""
import dataclasses
import os
import resource
import shutil
import subprocess
import sys
import tempfile
import time

ROUNDS = 3
SQLITE = shutil.which("sqlite3")
# No script has more than 1,048,576 bytes.
ROWS_OF_A_SCRIPT = 10000


@dataclasses.dataclass
class Took:
    """Seconds."""

    clock: float
    processor: float

    def least(self, other):
        return Took(min(self.clock, other.clock), min(self.processor, other.processor))

    def less(self, other):
        return Took(max(self.clock - other.clock, 0), max(self.processor - other.processor, 0))


@dataclasses.dataclass
class Both:
    """The same statements as scripts of RDO, one a session, and as one of SQL."""

    rdo: list
    sql: str


@dataclasses.dataclass
class Upkeep:
    """A command of RMU, and what does the same by the shell."""

    words: list
    sql: str


def stop(text):
    sys.exit(f"bench: {text}")


def run(words, text, folder):
    """What a program writes and takes."""
    before, start = resource.getrusage(resource.RUSAGE_CHILDREN), time.perf_counter()
    done = subprocess.run(words, input=text, capture_output=True, text=True, cwd=folder, check=False)
    clock, after = time.perf_counter() - start, resource.getrusage(resource.RUSAGE_CHILDREN)
    if done.returncode:
        stop(f"{' '.join(words)} ended with {done.returncode}: {done.stderr}")
    return done.stdout, Took(clock, after.ru_utime + after.ru_stime - before.ru_utime - before.ru_stime)


def copied(prepared, folder):
    """Puts a copy of the prepared files in place of what a round left, stable, so that no barrier of a work pays for it."""
    shutil.rmtree(folder, ignore_errors=True)
    shutil.copytree(prepared, folder)
    for name in os.listdir(folder):
        with open(os.path.join(folder, name), "rb") as it:
            os.fsync(it.fileno())


class Rdb:
    def __init__(self, program):
        self.program = program

    def said(self, scripts, folder):
        names = [f"s{number}" for number in range(len(scripts))]
        for name, script in zip(names, scripts):
            with open(os.path.join(folder, name), "w", encoding="ascii") as it:
                it.write(script)
        return run([self.program, "RDO", "BANK", *names], "", folder)

    def prepare(self, scripts, folder):
        run([self.program, "NEW", "BANK"], "", folder)
        for script in scripts:
            printed, _ = self.said([script], folder)
            if printed:
                stop(f"the set-up was answered {printed.splitlines()[0]}")

    def work(self, both, folder):
        if isinstance(both, Upkeep):
            return run([self.program, *both.words], "", folder)
        return self.said(both.rdo, folder)

    def nothing(self, folder):
        return self.said(["FINISH\n"], folder)


class Sqlite:
    """The shell over a file, with full synchronisation; its journal is kept in one of two ways."""

    def __init__(self, journal):
        self.head = f".separator ' '\nPRAGMA synchronous=FULL;\n.output /dev/null\nPRAGMA journal_mode={journal};\n.output\n"

    def said(self, text, folder):
        return run([SQLITE, "BANK.db"], self.head + text, folder)

    def prepare(self, text, folder):
        self.said(text, folder)

    def work(self, both, folder):
        return self.said(both.sql, folder)

    def nothing(self, folder):
        return self.said("SELECT COUNT(*) FROM sqlite_master WHERE name = '';\n", folder)


def best(engine, prepared, both, folder):
    """What an engine writes for a work over prepared files, and its least time beside opening and closing."""
    room, least, idle = os.path.join(folder, "room"), None, None
    for _ in range(ROUNDS):
        copied(prepared, room)
        _, took = engine.nothing(room)
        idle = took if idle is None else idle.least(took)
        copied(prepared, room)
        printed, took = engine.work(both, room)
        least = took if least is None else least.least(took)
    return printed, least.less(idle)


# ---- the statements

RDO_TABLE = "DEFINE RELATION {name}. A DATATYPE IS SIGNED LONGWORD. B DATATYPE IS TEXT SIZE IS 20. END {name} RELATION.\nDEFINE INDEX {name}_A FOR {name} DUPLICATES ARE NOT ALLOWED. A. END {name}_A INDEX.\n"
SQL_TABLE = "CREATE TABLE {name} (A INTEGER, B TEXT);\nCREATE UNIQUE INDEX {name}_A ON {name} (A);\n"


def rdo_transaction(text, kind="READ_WRITE"):
    return f"START_TRANSACTION {kind}\n{text}COMMIT\n"


def sql_transaction(text):
    return f"BEGIN;\n{text}COMMIT;\n"


def mixed(count):
    """The numbers below count, each once, in an order that isn't theirs."""
    return [number * 7919 % count for number in range(count)]


def rows(name, numbers):
    rdo = "".join(f"STORE X IN {name} USING X.A = {n}; X.B = 'row {n}'; END_STORE\n" for n in numbers)
    return rdo, "".join(f"INSERT INTO {name} VALUES ({n}, 'row {n}');\n" for n in numbers)


def table(name, count):
    """A relation with a unique index and so many rows, as scripts that are said one after another."""
    numbers = mixed(count)
    parts = [rows(name, numbers[at : at + ROWS_OF_A_SCRIPT]) for at in range(0, count, ROWS_OF_A_SCRIPT)]
    rdo = [rdo_transaction(RDO_TABLE.format(name=name)), *(rdo_transaction(it) for it, _ in parts)]
    return Both(rdo, sql_transaction(SQL_TABLE.format(name=name)) + "".join(sql_transaction(it) for _, it in parts))


def tables(names, count):
    each = [table(name, count) for name in names]
    return Both([script for it in each for script in it.rdo], "".join(it.sql for it in each))


def prints(count):
    return Both(["".join(f"PRINT {n}, 'row {n}'\n" for n in range(count))], "".join(f"SELECT {n}, 'row {n}';\n" for n in range(count)))


def stores(name, count):
    rdo, sql = rows(name, mixed(count))
    return Both([rdo_transaction(rdo)], sql_transaction(sql))


def finds(name, count, below):
    """So many look-ups by key of rows whose keys are below a number."""
    keys = mixed(below)
    keys = [keys[number % below] for number in range(count)]
    rdo = "".join(f"FOR X IN {name} WITH X.A = {n} PRINT X.B END_FOR\n" for n in keys)
    return Both([rdo_transaction(rdo, "READ_ONLY")], sql_transaction("".join(f"SELECT B FROM {name} WHERE A = {n};\n" for n in keys)))


def transfers(name, count, below):
    """So many transactions that each change two rows."""
    rdo = sql = ""
    for number in range(count):
        one, other = number * 7 % below, (number * 7 + 3) % below
        change = f"FOR X IN {name} WITH X.A = {{row}} MODIFY X USING X.B = 'time {number}'; END_MODIFY END_FOR\n"
        rdo += rdo_transaction(change.format(row=one) + change.format(row=other))
        change = f"UPDATE {name} SET B = 'time {number}' WHERE A = {{row}};\n"
        sql += sql_transaction(change.format(row=one) + change.format(row=other))
    return Both([rdo], sql)


# A condition on a range of keys, a join, a sort and a scan; each gives its order, which would follow from the access that is chosen.
CONDITION = ("FOR X IN R WITH X.A BETWEEN 100 AND 4000 AND X.B CONTAINING '7' SORTED BY X.A PRINT X.A END_FOR\n", "SELECT A FROM R WHERE A BETWEEN 100 AND 4000 AND B LIKE '%7%' ORDER BY A;\n")
JOIN = ("FOR X IN R CROSS Y IN R WITH Y.A = X.A SORTED BY X.A PRINT X.B, Y.B END_FOR\n", "SELECT X.B, Y.B FROM R X CROSS JOIN R Y WHERE Y.A = X.A ORDER BY X.A;\n")
SORT = ("FOR X IN R SORTED BY DESCENDING X.B PRINT X.A END_FOR\n", "SELECT A FROM R ORDER BY B DESC;\n")
SCAN = ("FOR X IN R WITH X.B = 'none' PRINT X.A END_FOR\n", "SELECT A FROM R WHERE B = 'none';\n")


def asked(question, times):
    rdo, sql = question
    return Both([rdo_transaction(rdo * times, "READ_ONLY")], sql_transaction(sql * times))


def changes(count):
    """So many rows changed by one statement."""
    rdo = f"FOR X IN R WITH X.A BETWEEN 0 AND {count - 1} MODIFY X USING X.B = 'changed'; END_MODIFY END_FOR\n"
    return Both([rdo_transaction(rdo)], sql_transaction(f"UPDATE R SET B = 'changed' WHERE A BETWEEN 0 AND {count - 1};\n"))


def at_once(make, names, count, *more):
    """The same work on each of some relations, by as many sessions."""
    each = [make(name, count, *more) for name in names]
    return Both([it.rdo[0] for it in each], "".join(it.sql for it in each))


VERIFY = Upkeep(["RMU/VERIFY", "BANK"], "PRAGMA integrity_check;\n")
BACKUP = Upkeep(["RMU/BACKUP", "BANK", "1"], ".backup copy.db\n")


# ---- what is told


class Bench:
    def __init__(self, program, scale, folder):
        self.rdb, self.scale, self.folder, self.made = Rdb(program), scale, folder, {}

    def prepared(self, engine, key, both):
        """A folder with a prepared database, made once."""
        at = os.path.join(self.folder, f"{type(engine).__name__}-{key}")
        if at not in self.made:
            os.mkdir(at)
            engine.prepare(both.rdo if engine is self.rdb else both.sql, at)
            self.made[at] = True
        return at

    def best(self, engine, key, before, both):
        return best(engine, self.prepared(engine, key, before), both, self.folder)

    def beside(self, name, key, before, make, count, journal="DELETE"):
        """A work beside the shell, and beside a quarter of it."""
        count //= self.scale
        whole, quarter = make(count), make(count // 4)
        printed, ours = self.best(self.rdb, key, before, whole)
        _, fourth = self.best(self.rdb, key, before, quarter)
        line = f"{count:,} {name}: rdb {told(ours)}"
        if SQLITE is not None:
            answer, theirs = self.best(Sqlite(journal), f"{key}-{journal}", before, whole)
            if printed != answer:
                stop(f"{name}: the outputs differ")
            line += f"; sqlite3 {told(theirs)}; ratio {ratio(ours.processor, theirs.processor)} of processor, {ratio(ours.clock, theirs.clock)} by the clock"
        print(f"{line}; 4 times the work takes {ratio(ours.processor, fourth.processor)} times as much processor, {ratio(ours.clock, fourth.clock)} times as long", flush=True)

    def asked(self, name, question, count, times=10):
        """A statement over all rows, beside the shell, and beside one over a quarter of the rows."""
        count, both = count // self.scale, asked(question, times)
        printed, ours = self.best(self.rdb, f"rows-{count}", table("R", count), both)
        _, fourth = self.best(self.rdb, f"rows-{count // 4}", table("R", count // 4), both)
        line = f"{times} {name} {count:,} rows: rdb {told(ours)}"
        if SQLITE is not None:
            answer, theirs = self.best(Sqlite("DELETE"), f"rows-{count}", table("R", count), both)
            if printed != answer:
                stop(f"{name}: the outputs differ")
            line += f"; sqlite3 {told(theirs)}; ratio {ratio(ours.processor, theirs.processor)} of processor"
        print(f"{line}; 4 times the rows take {ratio(ours.processor, fourth.processor)} times as much processor", flush=True)

    def kept(self, name, upkeep, count):
        """A command over so many rows, beside the shell, and beside a quarter of the rows."""
        count //= self.scale
        _, ours = self.best(self.rdb, f"rows-{count}", table("R", count), upkeep)
        _, fourth = self.best(self.rdb, f"rows-{count // 4}", table("R", count // 4), upkeep)
        line = f"{name} of {count:,} rows: rdb {told(ours)}"
        if SQLITE is not None:
            _, theirs = self.best(Sqlite("DELETE"), f"rows-{count}", table("R", count), upkeep)
            line += f"; sqlite3 {told(theirs)}; ratio {ratio(ours.processor, theirs.processor)} of processor, {ratio(ours.clock, theirs.clock)} by the clock"
        print(f"{line}; 4 times the rows take {ratio(ours.processor, fourth.processor)} times as much processor", flush=True)

    def threads(self, name, make, count, *more):
        """Four sessions, each on its own relation, beside one."""
        names = ["R1", "R2", "R3", "R4"]
        before, count = tables(names, 2000 // self.scale), count // self.scale
        _, one = self.best(self.rdb, "four", before, at_once(make, names[:1], count, *more))
        _, four = self.best(self.rdb, "four", before, at_once(make, names, count, *more))
        print(f"{count:,} {name} each, 4 sessions on 4 relations: {told(four)}; one alone: {told(one)}; 4 times the work takes {ratio(four.processor, one.processor)} times as much processor, {ratio(four.clock, one.clock)} times as long", flush=True)

    def sizes(self, small, large, count):
        """Look-ups by key in a large relation beside a small one."""
        small, large, count = small // self.scale, large // self.scale, count // self.scale
        times = []
        for below in (small, large):
            _, took = self.best(self.rdb, f"rows-{below}", table("R", below), finds("R", count, below))
            times.append(took)
        print(f"{count:,} look-ups by key in {large:,} rows: {told(times[1])}; in {small:,} rows: {told(times[0])}; ratio {ratio(times[1].processor, times[0].processor)} of processor", flush=True)


def ratio(one, other):
    """How often one time has the other in it, where that is long enough to tell."""
    return f"{one / other:.2f}" if other >= 0.001 else "(too short to tell)"


def told(took):
    return f"{took.processor * 1000:.0f} ms of processor, {took.clock * 1000:.0f} ms by the clock"


def works(bench):
    """The works by name."""
    below = 100
    few, some = table("R", below), 20000 // bench.scale
    return {
        "prints": lambda: bench.beside("PRINTs", "few", few, prints, 20000),
        "stores": lambda: bench.beside("STOREs under a unique index in one transaction", "none", table("R", 0), lambda n: stores("R", n), 10000),
        "finds": lambda: bench.beside("look-ups by key", "some", table("R", some), lambda n: finds("R", n, some), 20000),
        "transfers": lambda: bench.beside("transfers, each committed, beside a rollback journal", "few", few, lambda n: transfers("R", n, below), 500),
        "wal": lambda: bench.beside("transfers, each committed, beside WAL", "few", few, lambda n: transfers("R", n, below), 500, "WAL"),
        "scans": lambda: bench.asked("scans of", SCAN, 20000),
        "conditions": lambda: bench.asked("condition by an index over", CONDITION, 2000, 1),
        "changes": lambda: bench.beside("rows changed by an index range", "some", table("R", some), changes, 5000),
        "joins": lambda: bench.asked("joins by an index of twice", JOIN, 2000),
        "sorts": lambda: bench.asked("sorts of", SORT, 20000),
        "thread-finds": lambda: bench.threads("look-ups by key", finds, 5000, 2000 // bench.scale),
        "thread-transfers": lambda: bench.threads("transfers, each committed", transfers, 200, below),
        "verifies": lambda: bench.kept("a verification", VERIFY, 100000),
        "backups": lambda: bench.kept("a backup", BACKUP, 100000),
        "sizes": lambda: bench.sizes(1000, 100000, 10000),
    }


def main():
    program, words = os.path.abspath(sys.argv[1]), sys.argv[2:]
    scale = 20 if "--small" in words else 1
    with tempfile.TemporaryDirectory() as folder:
        all_works = works(Bench(program, scale, folder))
        for name in [it for it in words if it != "--small"] or all_works:
            if name not in all_works:
                stop(f"no work {name}; there are {' '.join(all_works)}")
            all_works[name]()


main()
