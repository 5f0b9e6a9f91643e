#!/usr/bin/env python3
"""Kamewhisk beside SQLite: both do the same work in turn, and the medians stand side by side.

usage: bench/beside_sqlite.py [--program FILE] [--rows N] [--rounds N] [WORK ..]

WORK, all of them where none is named:
  load      N rows of three numbers from CSV
  load_key  the same into a table with a primary key
  scan      20 SELECTs that read all rows and give none
  filter    20 SELECTs with four comparisons under AND and OR that give none
  give      10 SELECTs that give up to 65,000 rows of one column
  observe   the 20 scans, alone and while a second session asks SHOW ANALYZE 250 times

A work that the program refuses is left out, with the reason. Times are seconds of wall time, the median of
the rounds. Ours is a process with the statements less one that only loads; SQLite's are timed in process,
its load as `sqlite3 :memory:` with .import where that program is there. A ratio above 1 says that ours is
faster. Memory is the peak of our whole process, less that of one without a script."""
import argparse
import json
import os
import shutil
import sqlite3
import statistics
import subprocess
import sys
import tempfile
import time

HERE = os.path.dirname(os.path.abspath(__file__))
PROGRAM = os.path.join(HERE, "..", "crates", "sa_main", "out", "sa_main")
CLOCK = "/usr/bin/time"  # tells the peak of a process, which our own would blur
COLUMNS = "id INT%s, g INT, v INT"


class Refused(Exception):
    """The program doesn't do this work today."""


def numbers(count):
    """The rows, the same in every run: a number from 1 on, one of ten groups, one of a thousand values."""
    return [(row, row * 7919 % 10, row * 104729 % 1000) for row in range(1, count + 1)]


def as_csv(rows):
    return "".join("%d,%d,%d\n" % row for row in rows)


def loading(rows, key):
    """A script that loads the rows, without a session."""
    block = as_csv(rows)
    return "CREATE TABLE t (%s);\nLOAD DATA t BYTES %d;\n%s" % (COLUMNS % key, len(block), block)


def with_sessions(script, sessions):
    for number, statements in enumerate(sessions, 1):
        script += "SESSION %d;\n%s;\n" % (number, ";\n".join(statements))
    return script


def first_refusal(lines):
    """Why a statement, or the script, was refused; None where nothing was."""
    for line in lines:
        entry = json.loads(line)
        if "fault" in entry:
            return "%s at byte %d" % (entry["fault"], entry["place"])
        outcome = entry.get("outcome", {})
        if outcome.get("kind") == "refused" and outcome["why"] in ("NotSupported", "OutOfMemory"):
            return "a statement ends %s" % outcome["why"]
    return None


def run(program, script):
    """Seconds and peak bytes of the program over a script; no bytes where nothing tells them."""
    file = tempfile.TemporaryFile
    with file() as given, file() as taken, tempfile.NamedTemporaryFile() as peak:
        given.write(script.encode())
        given.seek(0)
        words = [CLOCK, "-q", "-f", "%M", "-o", peak.name] if os.path.exists(CLOCK) else []
        begin = time.perf_counter()
        status = subprocess.run(words + [program, "step"], stdin=given, stdout=taken).returncode
        seconds = time.perf_counter() - begin
        taken.seek(0)
        marked = (line for line in taken if b'"refused"' in line or b'"fault"' in line)
        why = first_refusal(marked)
        if why or status:
            raise Refused(why or "status %d" % status)
        return seconds, int(peak.read() or 0) * 1024


def ours(program, rows, key, sessions):
    """Seconds of the statements, or of the load where there are none, and the peak."""
    script = loading(rows, key)
    if not sessions:
        return run(program, script)
    alone, _ = run(program, script)
    whole, peak = run(program, with_sessions(script, sessions))
    return max(whole - alone, 1e-6), peak


def sqlite_load(rows, key):
    shell = shutil.which("sqlite3")
    if not shell:
        connection = sqlite3.connect(":memory:")
        begin = time.perf_counter()
        fill(connection, rows, key)
        return time.perf_counter() - begin
    with tempfile.NamedTemporaryFile("w", suffix=".csv") as file:
        file.write(as_csv(rows))
        file.flush()
        lines = "create table t (%s);\n.mode csv\n.import %s t\n" % (COLUMNS % key, file.name)
        begin = time.perf_counter()
        subprocess.run([shell, ":memory:"], input=lines.encode(), check=True)
        return time.perf_counter() - begin


def fill(connection, rows, key):
    connection.execute("create table t (%s)" % (COLUMNS % key))
    connection.executemany("insert into t values (?, ?, ?)", rows)


def sqlite_statements(rows, key, statements):
    connection = sqlite3.connect(":memory:")
    fill(connection, rows, key)
    begin = time.perf_counter()
    for statement in statements:
        connection.execute(statement).fetchall()
    return time.perf_counter() - begin


def works():
    """Each work: the key's words, the sessions of ours, and what SQLite does beside them."""
    scans = ["SELECT v FROM t WHERE v < 0"] * 20
    filters = ["SELECT id FROM t WHERE (v < 0 OR g > 8) AND (id < 0 OR v > 1000)"] * 20
    gives = ["SELECT id FROM t WHERE id <= 65000"] * 10
    asks = ["SHOW ANALYZE FOR 1"] * 250
    return {
        "load": ("", [], None),
        "load_key": (" PRIMARY KEY", [], None),
        "scan": ("", [scans], scans),
        "filter": ("", [filters], filters),
        "give": ("", [gives], gives),
        "observe": ("", [scans, asks], [scans]),
    }


def beside(program, rows, key, sessions, statements):
    """One round: ours and what stands beside it, in turn."""
    seconds, peak = ours(program, rows, key, sessions)
    if statements is None:
        return seconds, sqlite_load(rows, key), peak
    if isinstance(statements[0], list):
        return seconds, ours(program, rows, key, statements)[0], peak
    return seconds, sqlite_statements(rows, key, statements), peak


def main():
    parser = argparse.ArgumentParser(usage=__doc__.split("usage: ")[1].split("\n")[0])
    parser.add_argument("work", nargs="*")
    parser.add_argument("--program", default=PROGRAM)
    parser.add_argument("--rows", type=int, default=1_000_000)
    parser.add_argument("--rounds", type=int, default=5)
    given = parser.parse_args()
    known = works()
    if unknown := [work for work in given.work if work not in known]:
        sys.exit("no such work: %s; there are %s" % (" ".join(unknown), " ".join(known)))
    rows = numbers(given.rows)
    _, floor = run(given.program, "")
    print("%d rows, %d rounds" % (given.rows, given.rounds))
    print("| work | ours, s | beside, s | ratio | peak, bytes a row |\n|---|---|---|---|---|")
    for work in given.work or known:
        try:
            rounds = [beside(given.program, rows, *known[work]) for _ in range(given.rounds)]
        except Refused as why:
            print("| %s | not done: %s | | | |" % (work, why), flush=True)
            continue
        mine, other, peak = (statistics.median(column) for column in zip(*rounds))
        figures = (work, mine, other, other / mine, (peak - floor) / len(rows))
        print("| %s | %.3f | %.3f | %.2f | %.0f |" % figures, flush=True)


if __name__ == "__main__":
    main()
