#!/usr/bin/env python3
"""Brings the workshop's parts through, one step at a time: examples/live_workshop.py [PROGRAM [JOURNAL]]

PROGRAM is the controller (default: the built one), and JOURNAL its journal (default: one that is thrown away). The sessions are those of
`workshop-shift.toml`. Each part has a thread, which asks for its load, its moves and its unload, and where there is no room it waits until
others have made some. It also reports that the machine to which the part has come is done, under that machine's session. At the end the
cell is empty. Call it again after a kill: each part goes on where it stands. It needs `client.py` beside it, and Python 3.11 or later.
"""
import pathlib
import sys
import tempfile
import threading
import time
import tomllib
from concurrent.futures import ThreadPoolExecutor

from client import Cell

HERE = pathlib.Path(__file__).resolve().parent
CELL = HERE / "workshop.toml"
SHIFT = HERE / "workshop-shift.toml"


class Workshop:
    """The routes of the workshop's types, the session of each part, and that of each machine with a lock: it has one step in flight."""

    def __init__(self, cell):
        self.cell = cell
        self.routes = {kind["name"]: kind["route"] for kind in tomllib.loads(CELL.read_text())["type"]}
        self.sessions = dict(enumerate(tomllib.loads(SHIFT.read_text())["session"], 1))
        self.parts = {number: it for number, it in self.sessions.items() if "job" in it}
        self.machines = {it["machine"]: (number, threading.Lock()) for number, it in self.sessions.items() if "machine" in it}

    def carry(self, session, machine):
        """Brings the part of a session through from where it stands, and answers how often a step was refused. At a machine, if there is one,
        it isn't done."""
        job, kind = self.parts[session]["job"], self.parts[session]["type"]
        route = self.routes[kind]
        steps = [f"load {job} {kind}", *[f"move {job}"] * (len(route) - 1), f"unload {job}"]
        refused = self.work(machine) if machine else 0
        for at in range(self.cell.grants(session), len(steps)):
            refused += self.take(session, steps[at])
            if steps[at] != steps[-1] and not route[at].endswith(":hold"):
                refused += self.work(route[at])
        return refused

    def work(self, machine):
        """Reports that a machine is done with the part that came to it first."""
        session, lock = self.machines[machine]
        with lock:
            return self.take(session, f"process {machine}")

    def take(self, session, step):
        """Asks for a step until it is granted, and answers how often it was refused."""
        refused, rest = 0, 0.001
        while self.cell.wait(session, step) != "granted":  # the machine was done with the other part that stands there
            refused += 1
            time.sleep(rest)
            rest = min(2 * rest, 0.1)
        return refused

    def play(self):
        """Brings all parts through at the same time: how many steps are granted then, and how many were refused."""
        stand = [self.cell.where(it["job"]) for it in self.parts.values()]  # of all before one is asked for: there is one report for each
        with ThreadPoolExecutor(len(self.parts)) as threads:
            refused = sum(threads.map(self.carry, self.parts, [it[2] if it and not it[3] else None for it in stand]))
        return sum(map(self.cell.grants, self.sessions)), refused


def main():
    program = sys.argv[1] if len(sys.argv) > 1 else HERE.parent / "crates/wishkabe/out/wishkabe"
    with tempfile.TemporaryDirectory() as folder:
        journal = sys.argv[2] if len(sys.argv) > 2 else f"{folder}/journal"
        with Cell(program, "serve", CELL, journal) as cell:
            granted, refused = Workshop(cell).play()
            print(f"{granted} steps granted, {refused} refused", *cell.close(), sep="\n")


if __name__ == "__main__":
    main()
