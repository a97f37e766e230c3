"""Runs of `bench/asking.c`, which asks servers and makes the same writes and syncs without one; bench/serve and bench/growth use it."""
import os
import pathlib
import subprocess

# Of a journal that is made nothing is told.
os.environ["WISHKABE_HINTS"] = "0"

TOP = pathlib.Path(__file__).resolve().parent.parent
# How many turns a run has.
SLICES = 20


def cell_text(room):
    """A cell of one resource, with room for so many parts."""
    return f'version = 1\n[[resource]]\nname = "R"\ncapacity = {room}\n[[type]]\nname = "K"\nroute = ["R:hold"]\n'


def compiled(name, folder):
    """A program of a C file of this folder."""
    program = folder / name
    subprocess.run(["cc", "-O2", "-o", program, TOP / f"bench/{name}.c"], check=True)
    return program


class Asking:
    """Runs of `asking.c` in a folder, against servers that are asked in turns. Their cell has room for so many parts."""

    def __init__(self, servers, folder, room=1000):
        self.servers, self.folder, self.program, self.cell = servers, folder, compiled("asking", folder), folder / f"room-{room}.toml"
        self.cell.write_text(cell_text(room))

    def told(self, kind, *numbers):
        """The numbers that a run prints."""
        words = [self.program, kind, self.cell, self.folder, *numbers, *self.servers]
        done = subprocess.run([str(word) for word in words], stdout=subprocess.PIPE, check=True)
        return [float(word) for word in done.stdout.split()]

    def rates(self, air, groups=10):
        """The grants a second of each server with so many requests in flight, in groups a turn, and of the bare loop beside them."""
        return [groups * SLICES * air / seconds for seconds in self.told("rate", SLICES, groups, air)]

    def contended(self, air, grants):
        """Of so many sessions, which don't all have room: the grants a second of those that ask again, and of those that wait, in turns of so
        many grants; and how many lines these and those sent for each."""
        *seconds, polls, waits = self.told("room", SLICES, grants, air)
        return [*(grants * SLICES / it for it in seconds), polls / grants / SLICES, waits / grants / SLICES]

    def refusals(self, requests):
        """The median of the microseconds from a line to its refusal, for each server."""
        return self.told("refused", SLICES, requests // SLICES)
