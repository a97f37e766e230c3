"""Judges what a server says, line by line, by the rules of the policy and of the conversation: a plain recount, apart from the program."""
import collections
import tomllib

MOST_GRANTS, MOST_WAITERS = 1_572_864, 4_096
# How many words a step has; a move may also have a branch.
STEP_WORDS = {"load": 3, "process": 2, "move": 2, "unload": 2, "place": 5}


class Parts:
    """The parts of a cell, as the policy moves them."""

    def __init__(self, text):
        cell = tomllib.loads(text.decode())
        self.units = {one["name"]: one["capacity"] for one in cell["resource"]}
        self.orders = {one["name"]: one.get("order", one["capacity"]) for one in cell["resource"]}
        self.places, self.after, self.leads = {}, {}, {}
        for kind in cell["type"]:
            last = len(kind["route"]) - 1
            for place in range(last, -1, -1):
                stage, (on, *hold) = (kind["name"], place), kind["route"][place].split(":")
                self.places[stage] = on, not hold
                self.after[stage] = kind["next"][place] if "next" in kind else [place + 1] * (place < last)
                further = set().union(*(self.leads[kind["name"], after] for after in self.after[stage]))
                self.leads[stage] = {on} | {name for name in further if self.orders[name] >= self.orders[on]}
        self.parts = {}  # the stage of each job, and whether it is done there, in the order of their arrival

    def decide(self, step):
        """Why a step is refused, or None; and the parts after it."""
        verb, what, *more = step.split(" ")
        if verb == "process":
            for job, (stage, is_done) in self.parts.items():
                if not is_done and self.places[stage][0] == what:
                    return None, {**self.parts, job: (stage, True)}
            return "idle", self.parts
        if verb in ("load", "place"):
            if what in self.parts:
                return "job-loaded", self.parts
            stage = more[0], int(more[1]) if verb == "place" else 0
            is_done = more[2] == "done" if verb == "place" else not self.places[stage][1]
            return self.admit({**self.parts, what: (stage, is_done)})
        if what not in self.parts:
            return "no-such-job", self.parts
        (kind, place), is_done = self.parts[what]
        if not is_done:
            return "not-processed", self.parts
        after, others = self.after[kind, place], {job: part for job, part in self.parts.items() if job != what}
        if verb == "unload":
            return ("not-last", self.parts) if after else (None, others)
        if not after:
            return "at-last", self.parts
        branch = int(more[0]) if more else 0
        if branch >= len(after):
            return "no-branch", self.parts
        stage = kind, after[branch]
        return self.admit({**others, what: (stage, not self.places[stage][1])})

    def admit(self, parts):
        """The refusal of parts that some neighborhood can't hold, or None; and the parts then."""
        for name, units in self.units.items():
            if self.count(parts, name) > units:
                return f"saturated {name} {self.count(self.parts, name)} of {units}", self.parts
        return None, parts

    def count(self, parts, name):
        """How many parts stand in the neighborhood of a resource."""
        return sum(name in self.leads[stage] for stage, _ in parts.values())

    def next(self):
        """The next step of the plan."""
        def rank(part):
            on = self.places[part[1][0]][0]
            return self.orders[on], list(self.units).index(on)

        if not self.parts:
            return "none"
        job, (stage, is_done) = min(self.parts.items(), key=rank)
        return f"process {self.places[stage][0]}" if not is_done else f"move {job}" if self.after[stage] else f"unload {job}"

    def in_the_way(self, step):
        """The jobs that stand in the way of a step: where a neighborhood is full for it, those that this one counts."""
        why, _ = self.decide(step)
        full = why.split(" ")[1] if why and why.startswith("saturated ") else None
        return [job for job, (stage, _) in self.parts.items() if full in self.leads[stage]]

    def where(self, job):
        """Where the part of a job stands."""
        if job not in self.parts:
            return "none"
        stage, is_done = self.parts[job]
        return f"{stage[0]} {stage[1]} {self.places[stage][0]} {'done' if is_done else 'waiting'}"


class Referee:
    """What a server may say on a journal: the parts, the grants as sessions with their steps, and who waits for what, in order."""

    def __init__(self, text):
        self.parts, self.grants, self.waiters = Parts(text), [], {}
        self.ready = None  # the first who waits and wouldn't be refused for want of room: nothing but the end of this wait may come
        self.due = []  # of a list that is being told, the lines that are to come
        self.decided = []  # what came of each step since the server began, as a record has it
        self.answered = collections.Counter()  # the questions that it has answered since then

    def go_on(self, grants):
        """A server begins on a journal of these grants, which has all that were told, and perhaps more. Nobody waits."""
        if grants[: len(self.grants)] != self.grants:
            raise ValueError(f"told {self.grants[-3:]}, and the journal has {grants[: len(self.grants)][-3:]}")
        self.waiters, self.ready, self.due = {}, None, []
        for session, step in grants[len(self.grants) :]:
            if (why := self.decide(session, step)) != "granted":
                raise ValueError(f"the journal has {session} {step}, which is {why}")
        self.decided, self.answered = [], collections.Counter()

    def hear(self, line):
        """A line in its turn. A ValueError where another one had to come."""
        words = line.split(" ")
        if self.due:
            wanted = self.due.pop(0)
        elif self.ready:
            wanted = self.end_of(*self.ready)
        else:
            wanted = self.answer(words) if words[0].isdigit() else self.told(words)
        if line != wanted:
            raise ValueError(f"told {line}, and not {wanted}")

    def last_lines(self):
        """The lines after the end of the input: who waits still, what is left, and the plan."""
        if self.ready or self.due:
            raise ValueError(f"{self.ready or self.due} isn't told")
        still = [f"{session} {step} still {self.parts.decide(step)[0]}" for session, step in self.waiters.items()]
        parts, plan = self.parts.parts, []
        while (step := self.parts.next()) != "none":
            plan.append(step)
            self.parts.parts = self.parts.decide(step)[1]
        self.parts.parts = parts
        return [*still, f"left {len(parts)}", f"plan {len(plan)}", *plan]

    def told(self, words):
        """The reply to a question. Of a list it is the first line, and the others are due."""
        known = {"next": self.next, "job": self.parts.where, "why": self.why, "parts": self.all_parts, "jobs": self.jobs,
                 "room": lambda: MOST_GRANTS - len(self.grants), "left": lambda: len(self.parts.parts)}
        word, *about = question_in(words)
        if word not in known:
            raise ValueError(f"told {' '.join(words)}, which answers nothing")
        self.answered[" ".join([word, *about])] += 1
        return " ".join([word, *about, str(known[word](*about))])

    def next(self):
        """The next step of the plan, which would be granted."""
        step = self.parts.next()
        if step != "none" and (why := self.parts.decide(step)[0]):
            raise ValueError(f"the next step of the plan is {step}, which is refused {why}")
        return step

    def why(self, step):
        """What a step would be told."""
        why, _ = self.parts.decide(step)
        return f"refused {why}" if why else "granted"

    def all_parts(self):
        """How many parts there are, whose lines are due."""
        return self.listed("part", list(self.parts.parts))

    def jobs(self, step):
        """How many parts stand in the way of a step, whose lines are due."""
        return self.listed("job", self.parts.in_the_way(step))

    def listed(self, word, jobs):
        """How many jobs there are. A line for each, with this word, is due."""
        self.due = [f"{word} {job} {self.parts.where(job)}" for job in jobs]
        return len(jobs)

    def answer(self, words):
        """The reply to a line of a session. It may wait or not where there is no room, as the line was."""
        session, what = words[:2]
        steps = [step for one, step in self.grants if one == session]
        if what in ("grants", "last"):
            self.answered[f"{session} {what}"] += 1
        if what == "grants":
            return f"{session} grants {len(steps)}"
        if what == "last":
            return f"{session} last {len(steps)} {steps[-1] if steps else 'none'}"
        if what == "cancel":
            return f"{session} cancel {self.waiters.pop(session, 'none')}"
        step, said = step_of(words[1:])
        if session in self.waiters:
            return f"{session} {step} refused already-waiting"
        answer = self.decide(session, step)
        if said.startswith("waits ") and answer.startswith("refused saturated ") and len(self.waiters) < MOST_WAITERS:
            self.waiters[session] = step
            answer = f"waits {answer.removeprefix('refused ')}"
        return f"{session} {step} {answer}"

    def end_of(self, session, step):
        """The end of a wait."""
        del self.waiters[session]
        answer = self.decide(session, step)
        return f"{session} {step} {'served' if answer == 'granted' else answer.replace('refused', 'dropped', 1)}"

    def decide(self, session, step):
        """What comes of a step. Who waits first and has room then is ready, or whose step is refused for another cause."""
        why, self.parts.parts = self.parts.decide(step)
        answer = f"refused {why}" if why else "granted"
        self.decided.append(f"{session} {step} {answer}")
        if why is None:
            self.grants.append((session, step))
        refused = ((one, self.parts.decide(one[1])[0]) for one in self.waiters.items())
        self.ready = next((one for one, why in refused if not (why or "").startswith("saturated ")), None)
        return answer


def question_in(words):
    """The question with which a reply to it begins: its word, and what it is about, if it is about something."""
    word, *more = words
    if word == "why":
        return word, step_of(more)[0]
    if word == "jobs":
        return word, " ".join(more[:-1])  # a step, and how many they are
    return words[:2] if word == "job" else words[:1]


def step_of(words):
    """The step with which words begin, and what follows."""
    count = STEP_WORDS[words[0]]
    count += words[0] == "move" and words[count : count + 1] != [] and words[count].isdigit()
    return " ".join(words[:count]), " ".join(words[count:])
