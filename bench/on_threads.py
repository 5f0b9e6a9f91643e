#!/usr/bin/env python3
"""Sessions on threads (`run`) beside the same sessions in turn (`step`), and what being asked costs.

usage: bench/on_threads.py [--program FILE] [--rows N] [--rounds N]

Prints the medians of the rounds, in seconds of wall time, each less that of a process that only loads:

  one       one session that scans N numbers 20 times, by `step` and by `run`
  four      four such sessions, by `step` and by `run`; the ratio is what threads gain
  asked 1   one such session by `run`, while another asks SHOW ANALYZE for it without a break
  asked 15  the same with fifteen that ask
  sixteen   16 sessions of 256 statements each that look into one another and kill one another, by `run`; a
            run counts where each session's entries are numbered without a gap and each request has one
            answer, and where a statement is interrupted exactly if it was killed

An asker's statements end with the scans, so how many requests were answered is told beside the time."""
import argparse
import collections
import json
import os
import random
import statistics
import subprocess
import sys
import tempfile
import time

HERE = os.path.dirname(os.path.abspath(__file__))
PROGRAM = os.path.join(HERE, "..", "crates", "sa_main", "out", "sa_main")
SCANS = "SELECT a FROM t WHERE a < 0;" * 20
ASKS = "SHOW ANALYZE FOR 1;" * 250


def with_table(rows, sessions, turns=1_000_000):
    """A script with a table of so many numbers, and these sessions. A request or a wait lasts so many turns."""
    block = "".join("%d\n" % number for number in range(rows))
    script = "CREATE TABLE t (a INT); TURNS %d; LOAD DATA t BYTES %d;\n%s" % (turns, len(block), block)
    for number, statements in enumerate(sessions, 1):
        script += "\nSESSION %d;\n%s" % (number, statements)
    return script


def busy_sessions():
    """Statements of 16 sessions that look into and kill one another, the same in every run."""
    chance = random.Random(7)
    sessions = []
    for session in range(1, 17):
        statements = []
        for _ in range(256):
            other = chance.choice([one for one in range(1, 17) if one != session])
            statements.append(chance.choice([
                "SHOW ANALYZE FOR %d;" % other,
                "SHOW EXPLAIN FOR %d;" % other,
                "KILL QUERY %d;" % other,
                "WAIT FOR %d AT 10;" % other,
                "SELECT a FROM t WHERE a > 100;",
            ]))
        sessions.append("".join(statements))
    return sessions


def run(program, command, script):
    """Seconds of the program over a script, and what it printed."""
    with tempfile.TemporaryFile() as given, tempfile.TemporaryFile() as taken:
        given.write(script.encode())
        given.seek(0)
        begin = time.perf_counter()
        status = subprocess.run([program, command], stdin=given, stdout=taken).returncode
        seconds = time.perf_counter() - begin
        if status != 0:
            sys.exit("%s %s: status %d" % (program, command, status))
        taken.seek(0)
        return seconds, taken.read().decode().splitlines()


def timed(program, command, script, rounds):
    """The median of the rounds, and what the last one printed."""
    seconds, lines = [], []
    for _ in range(rounds):
        one, lines = run(program, command, script)
        seconds.append(one)
    return statistics.median(seconds), lines


def entries_of(lines):
    return [entry for entry in map(json.loads, lines) if "event" in entry]


def answered(lines):
    return sum(entry["event"] == "taken" for entry in entries_of(lines))


def fault_in(lines):
    """What isn't so in these journals; None where all is."""
    entries = entries_of(lines)
    numbers = collections.defaultdict(list)
    open_requests, killed = {}, {}
    for entry in entries:
        desk, actor, event = entry["desk"], entry["actor"], entry["event"]
        numbers[actor].append(entry["seq"])
        if event == "queued":
            open_requests[desk, actor] = "queued"
        elif event == "served":
            open_requests[desk, entry["asker"]] = "served"
        elif event == "taken":
            if open_requests.pop((desk, actor), None) != "served":
                return "an answer that wasn't given is taken"
        elif event in ("spent", "withdrawn"):
            open_requests.pop((desk, actor), None)
        elif event == "begin":
            killed[desk] = False
        elif event == "kill_sent" and desk in killed:
            killed[desk] = True
        elif event == "end":
            if (entry["outcome"].get("why") == "Interrupted") != killed.pop(desk):
                return "a statement is interrupted without a kill, or goes on after one"
    for session, seen in numbers.items():
        if sorted(seen) != list(range(1, len(seen) + 1)):
            return "the entries of session %d have a gap" % session
    return "a request has no end" if open_requests else None


def main():
    parser = argparse.ArgumentParser(usage=__doc__)
    parser.add_argument("--program", default=PROGRAM)
    parser.add_argument("--rows", type=int, default=1_000_000)
    parser.add_argument("--rounds", type=int, default=5)
    given = parser.parse_args()

    def median(command, sessions):
        return timed(given.program, command, with_table(given.rows, sessions), given.rounds)

    load, _ = median("step", [])
    print("load      %.2f" % load)
    for name, sessions in (("one", [SCANS]), ("four", [SCANS] * 4)):
        in_turn, on_threads = median("step", sessions)[0] - load, median("run", sessions)[0] - load
        print("%-9s step %.2f  run %.2f  ratio %.2f" % (name, in_turn, on_threads, in_turn / on_threads))
    for askers in (1, 15):
        seconds, lines = median("run", [SCANS] + [ASKS] * askers)
        print("asked %-3d run %.2f  answered %d" % (askers, seconds - load, answered(lines)))
    worst = 0
    for _ in range(20):
        seconds, lines = run(given.program, "run", with_table(200, busy_sessions(), turns=1000))
        worst = max(worst, seconds)
        if fault_in(lines):
            sys.exit("sixteen: " + fault_in(lines))
    print("sixteen   20 runs, the longest %.2f, all as they have to be" % worst)


if __name__ == "__main__":
    main()
