#!/usr/bin/env python3
"""Brings parts through a plant of several cells, each with a server of its own: examples/plant/plant.py PROGRAM FILES JOURNALS

FILES is a folder with the plant's cell file `plant.toml`, the file of each cell, named after its resource there, and `orders.toml`, a shift
file of the plant with the parts that are to come. JOURNALS is a folder for the journals, named alike. It hands the parts over by the rules
of docs/PLANT.md, and works and moves them in each cell, where your cell software takes its place. What it knows stands in the journals, so
it may be killed at any moment, and each server too: call it again. It ends when all parts have left; with the status and the line of a server
that a person has to look after; or with 1 where nothing is granted any more. It needs `client.py` in the folder above, and Python 3.11 or later.
"""
import fcntl
import pathlib
import subprocess
import sys
import tomllib
from dataclasses import make_dataclass

sys.path.insert(0, str(pathlib.Path(__file__).resolve().parent.parent))
from client import Cell, Stopped  # noqa: E402

ENTRY, EXIT, WORK = 1, 2, 3  # the sessions at a server: loads; unloads, and the moves of the plant; what is done within a cell
Part = make_dataclass("Part", ["job", "type", "place", "done", "at", "after"])  # its resource, and the places that follow: none at an exit


class Controller:
    """A cell file, its server, and the parts that stand there, in the order in which they arrived at their places."""

    def __init__(self, program, file, journal):
        types = {it["name"]: it for it in tomllib.loads(file.read_text())["type"]}
        self.routes = {name: [place.split(":") for place in it["route"]] for name, it in types.items()}
        self.next = {name: it.get("next") or [[n] for n in range(1, len(it["route"]))] + [[]] for name, it in types.items()}
        self.name, self.parts, (told, self.server) = file.stem, {}, opened(program, file, journal)
        for word, job, kind, place, state, *_ in map(str.split, told.splitlines()):
            if word == "part":
                self.arrives(int(job), kind, int(place), state == "done")

    def arrives(self, job, kind, place, is_done=False):
        at, *hold = self.routes[kind][place]
        self.parts[job] = Part(job, kind, place, is_done or bool(hold), at, self.next[kind][place])

    def worked_on(self, resource):
        """The part whose work there comes next."""
        return next((part for part in self.parts.values() if not part.done and part.at == resource), None)

    def grants(self, session, step):
        """Asks for a step, and whether it is granted. Then the parts stand as it says."""
        if self.server.ask(session, step) != "granted":
            return False
        verb, what, *more = step.split()
        if verb == "process":
            self.worked_on(what).done = True
            return True
        part = self.parts.pop(int(what), None)
        if verb == "load":
            self.arrives(int(what), more[0], 0)
        elif verb == "move":
            self.arrives(part.job, part.type, part.after[int(more[0]) if more else 0])
        return True


def opened(program, file, journal, tries=5):
    """Where the parts are, and a server. That of a killed run ends when its input does; one that it had just started is asked nothing."""
    with open(journal, "ab") as held:
        fcntl.flock(held, fcntl.LOCK_SH)
        told = subprocess.run([program, "parts", file, journal], stdout=subprocess.PIPE, text=True, check=False).stdout
    try:
        return told, Cell(program, "serve", file, journal)
    except Stopped as stopped:
        if stopped.args[0] != 7 or tries == 1:
            raise
    return opened(program, file, journal, tries - 1)


def moves(part):
    return [f"move {part.job}" + f" {branch}" * (branch > 0) for branch in range(len(part.after))]


class Plant:
    """The plant's controller with those of the cells, the parts that are to come, and the name of the controller that was asked last."""

    def __init__(self, program, files, journals):
        self.orders = [(it["job"], it["type"]) for it in tomllib.loads((files / "orders.toml").read_text())["session"]]
        self.all = {}
        for Plant.asked in [*(it["name"] for it in tomllib.loads((files / "plant.toml").read_text())["resource"]), "plant"]:
            self.all[Plant.asked] = Controller(program, files / f"{Plant.asked}.toml", journals / Plant.asked)
        self.above = self.all["plant"]
        self.cells = {name: cell for name, cell in self.all.items() if cell is not self.above}

    def visit(self, part):
        """A part of the plant as it stands in the cell where it belongs; none where it is queued for that cell."""
        here = self.cells[part.at].parts.get(part.job)
        return here if here and here.type == f"{part.type}-{part.place}" else None

    def state(self, here):
        """Of a part of a cell: whether it belongs there, was put in by hand, is over there, or stays until it is in its next cell."""
        part = self.above.parts.get(here.job)
        visit = part and self.visit(part)
        return "here" if visit is here else "strange" if here.after else "over" if visit or not part else "next"

    def to_come(self):
        return self.orders[self.above.server.grants(ENTRY) :]

    def handing(self):
        """What the plant is asked: to pass on or let out what stands at an exit and nowhere else, and to load the next part."""
        for part in self.above.parts.values():
            here = self.visit(part)
            if here and here.done and not here.after and sum(part.job in cell.parts for cell in self.cells.values()) == 1:
                yield from ((EXIT, step) for step in moves(part) or [f"unload {part.job}"])
        for job, kind in self.to_come()[:1]:
            if not any(job in cell.parts for cell in self.cells.values()):
                yield ENTRY, f"load {job} {kind}"

    def working(self, cell):
        """What a cell is asked: to unload what is over, to load the first that is queued, and that a machine is done or a part goes on."""
        yield from ((EXIT, f"unload {here.job}") for here in cell.parts.values() if self.state(here) == "over")
        queued = [part for part in self.above.parts.values() if part.at == cell.name and not self.visit(part)]
        yield from ((ENTRY, f"load {part.job} {part.type}-{part.place}") for part in queued[:1])
        for here in [it for it in cell.parts.values() if self.state(it) == "here"]:
            steps = moves(here) if here.done else [f"process {here.at}"] * (here is cell.worked_on(here.at))
            yield from ((WORK, step) for step in steps)

    def goes_on(self):
        """Whether something was granted. Each controller is asked until it grants a step."""
        granted = False
        for Plant.asked, cell in self.all.items():
            granted |= any(cell.grants(*step) for step in (self.handing() if cell is self.above else self.working(cell)))
        return granted

    def stand(self):
        return [(name, it.job, it.type, it.at, self.state(it)) for name, cell in self.cells.items() for it in cell.parts.values()]


def main():
    try:
        plant = Plant(sys.argv[1], *map(pathlib.Path, sys.argv[2:]))
        print(f"{len(plant.to_come())} to come", *(" ".join(map(str, it)) for it in plant.stand()), sep="\n", flush=True)
        goes_on = True  # nobody else asks, so where nothing is granted nothing will be
        while goes_on and (plant.to_come() or plant.above.parts or any(it[-1] != "strange" for it in plant.stand())):
            goes_on = plant.goes_on()
        for Plant.asked, cell in plant.all.items():
            cell.server.close()
        if not goes_on:
            sys.exit("nothing is granted any more: a part that was put in by hand stands in the way, or the files break a rule")
        print("all have left")
    except Stopped as stopped:
        print(f"{Plant.asked}: {stopped.args[1]}", file=sys.stderr)
        sys.exit(stopped.args[0])


if __name__ == "__main__":
    main()
