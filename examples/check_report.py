#!/usr/bin/env python3
"""Holds a report against its session: check_report.py SESSION REPORT [--budget N] [--serial] [--program PROGRAM]

A report of several clients depends on their schedule, so it cannot be compared with a stored one. It is honest where all
of these hold, and then this says `honest`, and ends with status 0:

- each entry of the history is a commit of a client, those of one client rise, and they are exactly its accepted commands;
- each client has one record for each of its commands, of its kind;
- no record names a revision below one that its client's earlier records name, nor one above the history;
- an accepted commit is the entry that it names, above all that its client's earlier records name;
- a cancelled ask was in mode latest, and a later revision of the history is named; with --serial none is cancelled;
- each refusal, answer and ask that was spent is what a single client is told at that revision: all of them are put behind
  the commits before them into one session of one client, and PROGRAM (by default ./svserve) runs it.

Else the first thing that is not so is told, and the status is 1.
"""
import json
import os
import subprocess
import sys

DEFAULT_BUDGET = 1000000


class Dishonest(Exception):
    """What is wrong with a report."""


def need(holds, words):
    if not holds:
        raise Dishonest(words)


class Lines:
    """The lines of a report, one after another."""

    def __init__(self, text):
        need(text.endswith(b"\n"), "the report does not end with a line feed")
        self.lines = text[:-1].split(b"\n")
        self.at = 0

    def next(self):
        need(self.at < len(self.lines), "the report is cut short")
        self.at += 1
        return self.lines[self.at - 1]

    def numbers(self, words, count):
        """The numbers behind these words in the next line, which has so many and nothing else."""
        parts = self.next().split(b" ")
        front = words.encode().split(b" ") if words else []
        need(parts[: len(front)] == front, f"line {self.at}: `{words}` should stand here")
        rest = parts[len(front) :]
        need(len(rest) == count, f"line {self.at}: {count} numbers should stand here")
        return [number(word, self.at) for word in rest]


def number(word, line):
    need(word.isdigit() and (word == b"0" or not word.startswith(b"0")), f"line {line}: {word!r} is no number")
    return int(word)


def record_of(lines, j):
    """Record j as (kind, numbers, what is told)."""
    line = lines.next()
    parts = line.split(b" ")
    need(len(parts) >= 3 and parts[0] == str(j).encode(), f"line {lines.at}: the record of command {j} should stand here")
    kind = parts[1].decode("ascii", "replace")
    if kind == "answer":
        need(len(parts) == 4, f"line {lines.at}: an answer has a revision and a count of lines")
        r, count = number(parts[2], lines.at), number(parts[3], lines.at)
        return kind, (r,), [lines.next() for _ in range(count)]
    if kind == "accepted":
        need(len(parts) == 3, f"line {lines.at}: an accepted commit has a revision")
        return kind, (number(parts[2], lines.at),), None
    if kind in ("cancelled", "spent"):
        need(len(parts) == 4, f"line {lines.at}: two numbers should stand here")
        return kind, (number(parts[2], lines.at), number(parts[3], lines.at)), None
    need(kind == "refused", f"line {lines.at}: `{kind}` is no record")
    return kind, (number(parts[2], lines.at),), parts[3:]


def report_of(text, clients):
    """The entries of the history, and each client's records."""
    lines = Lines(text)
    (count,) = lines.numbers("history", 1)
    entries = []
    for r in range(1, count + 1):
        i, j = lines.numbers(str(r), 2)
        entries.append((i, j))
    records = []
    for i, commands in enumerate(clients, 1):
        (named,) = lines.numbers("client", 1)
        need(named == i, f"line {lines.at}: client {i} should stand here")
        records.append([record_of(lines, j) for j in range(1, len(commands) + 1)])
    need(lines.at == len(lines.lines), f"line {lines.at + 1}: the report should end here")
    return entries, records


def check_entries(entries, records, clients):
    for r, (i, j) in enumerate(entries, 1):
        known = 1 <= i <= len(clients) and 1 <= j <= len(clients[i - 1])
        need(known and "commit" in clients[i - 1][j - 1], f"entry {r} is no commit of a client")
    for i, told in enumerate(records, 1):
        own = [j for k, j in entries if k == i]
        accepted = [j for j, record in enumerate(told, 1) if record[0] == "accepted"]
        need(own == accepted, f"client {i}: its entries {own} are not its accepted commands {accepted}")


def check_client(i, commands, told, entries, options):
    front = 0
    for j, (command, (kind, numbers, _)) in enumerate(zip(commands, told), 1):
        where = f"client {i}, command {j}"
        if "commit" in command:
            need(kind in ("accepted", "refused"), f"{where}: a commit is not {kind}")
        else:
            need(kind in ("answer", "cancelled", "spent"), f"{where}: an ask is not {kind}")
        named = numbers[:1] if kind == "spent" else numbers
        need(all(front <= r <= len(entries) for r in named), f"{where}: {numbers} with front {front} of {len(entries)}")
        if kind == "accepted":
            need(front < numbers[0], f"{where}: revision {numbers[0]} was named before")
            need(entries[numbers[0] - 1] == (i, j), f"{where}: entry {numbers[0]} is another")
        if kind == "cancelled":
            need(command.get("mode", "latest") == "latest", f"{where}: a pinned ask was cancelled")
            need(not options["serial"], f"{where}: cancelled, though the clients ran one after another")
            need(numbers[0] < numbers[1], f"{where}: {numbers[1]} is not later than {numbers[0]}")
        if kind == "spent":
            limit = command.get("budget", options["budget"])
            need(numbers[1] == limit, f"{where}: its budget is {limit}")
        front = max([front, *named])


def replayed(session, entries, records, options):
    """The session of one client that has each entry in its turn, and behind it what was told at it, with the places of these."""
    at = [[] for _ in range(len(entries) + 1)]
    for i, told in enumerate(records):
        for j, (kind, numbers, _) in enumerate(told):
            if kind in ("refused", "answer", "spent"):
                at[numbers[0]].append((i, j))
    order = list(at[0])
    for r, (i, j) in enumerate(entries, 1):
        order.append((i - 1, j - 1))
        order += at[r]
    commands = [session["clients"][i][j] for i, j in order]
    return {"files": session["files"], "clients": [commands]}, order


def check_answers(session, entries, records, options):
    alone, order = replayed(session, entries, records, options)
    ran = subprocess.run(
        [options["program"], "run", "--budget", str(options["budget"])],
        input=json.dumps(alone).encode(),
        stdout=subprocess.PIPE,
    )
    need(ran.returncode == 0, f"the run of one client ended with status {ran.returncode}")
    made, told = report_of(ran.stdout, alone["clients"])
    for (i, j), record in zip(order, told[0]):
        need(record == records[i][j], f"client {i + 1}, command {j + 1}: {records[i][j][:2]} is {record[:2]} by one client")
    need(len(made) == len(entries), "by one client the history is another")


def options_of(words):
    options = {"budget": DEFAULT_BUDGET, "serial": False, "program": "./svserve", "files": []}
    words = list(words)
    while words:
        word = words.pop(0)
        if word == "--serial":
            options["serial"] = True
        elif word == "--budget" and words:
            options["budget"] = int(words.pop(0))
        elif word == "--program" and words:
            options["program"] = words.pop(0)
        else:
            options["files"].append(word)
    return options


def main():
    options = options_of(sys.argv[1:])
    if len(options["files"]) != 2:
        sys.exit(__doc__)
    options["program"] = os.path.abspath(options["program"])
    with open(options["files"][0], "rb") as file:
        session = json.load(file)
    with open(options["files"][1], "rb") as file:
        text = file.read()
    clients = session["clients"]
    try:
        entries, records = report_of(text, clients)
        check_entries(entries, records, clients)
        for i, (commands, told) in enumerate(zip(clients, records), 1):
            check_client(i, commands, told, entries, options)
        check_answers(session, entries, records, options)
    except Dishonest as wrong:
        sys.exit(f"dishonest: {wrong}")
    kinds = [kind for told in records for kind, _, _ in told]
    print("honest:", ", ".join(f"{kinds.count(kind)} {kind}" for kind in ("accepted", "refused", "answer", "cancelled", "spent")))


if __name__ == "__main__":
    main()
