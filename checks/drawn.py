"""Cells and shifts that are drawn from a number, as the document of formats has it, apart from the program."""

RESOURCES, TYPES, JOBS = 16, 8, 48


class Draws:
    """A sequence of draws."""

    def __init__(self, number):
        self.number = number

    def draw(self, k):
        """One of the first k numbers."""
        self.number = (self.number * 6364136223846793005 + 1442695040888963407) % 2**64
        return (self.number >> 33) % k


class Drawn:
    """The resources of a cell as capacity and order, its routes as places with whether they work, and the types of the jobs."""

    def __init__(self, number):
        draws = Draws(number)
        self.resources = [(1 + draws.draw(4), 1 + draws.draw(8)) for _ in range(RESOURCES)]
        self.routes = [
            [(draws.draw(RESOURCES), draws.draw(4) != 0) for _ in range(3 + draws.draw(6))]
            for _ in range(TYPES)
        ]
        self.kinds = [draws.draw(TYPES) for _ in range(JOBS)]

    def work_on(self, machine):
        """How many places of the routes of all jobs work on a machine."""
        return sum((machine, True) == place for kind in self.kinds for place in self.routes[kind])

    def steps(self):
        """How many steps all sessions have together."""
        return sum(len(self.routes[kind]) + 1 for kind in self.kinds) + sum(self.work_on(machine) for machine in range(RESOURCES))

    def cell(self):
        """The text of the cell file."""
        lines = ["version = 1"]
        for number, (capacity, order) in enumerate(self.resources):
            lines += ["[[resource]]", f'name = "R{number}"', f"capacity = {capacity}", f"order = {order}"]
        for number, route in enumerate(self.routes):
            places = ", ".join(f'"R{on}"' if works else f'"R{on}:hold"' for on, works in route)
            lines += ["[[type]]", f'name = "T{number}"', f"route = [{places}]"]
        return "\n".join(lines) + "\n"

    def shift(self, number=1, patience=1000):
        """The text of the shift file. A machine without work has no session there: a file has none without steps."""
        lines = ["version = 1", f"number = {number}", f"patience = {patience}"]
        for job, kind in enumerate(self.kinds):
            lines += ["[[session]]", f"job = {job + 1}", f'type = "T{kind}"']
        for machine in range(RESOURCES):
            turns = self.work_on(machine)
            if turns:
                lines += ["[[session]]", f'machine = "R{machine}"', f"turns = {turns}"]
        return "\n".join(lines) + "\n"
