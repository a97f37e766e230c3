"""A server over pipes, and sessions that ask it and count what they were granted, apart from the client in `examples/`."""
import collections
import os
import pathlib
import queue
import subprocess
import threading
import time

from journal_file import Numbers, entries_in, entry, step_in

# What a session is told of a step that doesn't wait.
ANSWERS = "granted", "refused"
# What it asks beside its steps, of its job and of a step; what it says while it waits, and how long it waits at most for a line before it does.
QUESTIONS = "parts", "jobs STEP", "next", "job JOB", "room", "left", "why STEP"
MEANWHILE = "cancel", "grants", "last", "unload 4294967295", "wait unload 4294967295"
WAIT_SECONDS = 0.03


def kind_of(line):
    """The kind of a question, as `jobs` or `K last`, and none of a line that is no question."""
    first, *more = line.split(" ")
    return first if not first.isdigit() else f"K {more[0]}" if more[0] in ("grants", "last") else None


class Wrong:
    """What went otherwise, how many kills and cases there were, and how many questions of each kind were answered."""

    def __init__(self):
        self.kills = self.cases = self.otherwise = 0
        self.answered = collections.Counter()

    def tell(self, name, what):
        """Something went otherwise."""
        self.otherwise += 1
        print(f"{name}: {what}", flush=True)

    def see(self, name, found, wanted):
        """A case, which goes otherwise where something else is found."""
        self.cases += 1
        if found != wanted:
            self.tell(name, f"{str(found)[-400:]!r}, and not {str(wanted)[-400:]!r}")


def within(seconds, is_so):
    """Whether something is so within some seconds."""
    end = time.monotonic() + seconds
    while time.monotonic() < end:
        if is_so():
            return True
        time.sleep(0.02)
    return False


def servers_of(journal):
    """The processes whose words have `serve` and this journal among them."""
    found = []
    for one in pathlib.Path("/proc").glob("[0-9]*"):
        try:
            words = (one / "cmdline").read_bytes().split(b"\0")
        except OSError:
            continue
        if b"serve" in words and str(journal).encode() in words:
            found.append(int(one.name))
    return found


class CellFile:
    """A cell file with its journals, as a program serves them."""

    def __init__(self, program, path):
        self.program, self.path, self.text = program, path, path.read_bytes()
        self.numbers = Numbers(self.text)

    def entries(self, file):
        """The entries of a journal; none where there is no file."""
        return entries_in(file.read_bytes() if file.exists() else b"", self.text)

    def entry(self, session, step):
        """The entry of a step that `serve` granted."""
        return entry(self.numbers, step, session, 0)

    def steps(self, entries, session):
        """The steps of a session in a journal."""
        found = (step_in(self.numbers, one) for one in entries)
        return [" ".join(words[1:]) for words in found if words[0] == str(session)]

    def told(self, command, *words):
        """What a command says of the cell: its status and its output."""
        done = subprocess.run([self.program, command, self.path, *words], stdin=subprocess.DEVNULL, stdout=subprocess.PIPE, check=False)
        return done.returncode, done.stdout.decode()

    def served(self, file, lines=None, **outside):
        """How `serve` ends on lines that are sent at once: its status and its output."""
        done = subprocess.run([self.program, "serve", self.path, file], input=lines, check=False, **{"stdout": subprocess.PIPE, **outside})
        return done.returncode, done.stdout and done.stdout.decode()


class Server:
    """`serve` as a child. Its lines are handed out by their first word. All of them are kept, and the lines that are said to it."""

    def __init__(self, cell, file, **outside):
        self.child = subprocess.Popen([cell.program, "serve", cell.path, file], stdin=subprocess.PIPE, stdout=subprocess.PIPE,
                                      env=dict(os.environ, **outside))
        self.lines, self.said, self.heard, self.is_gone, self.lock = [], [], {}, False, threading.Lock()
        self.reader = threading.Thread(target=self._read, daemon=True)
        self.reader.start()
        self.head = self.hear("shift").get()

    def _read(self):
        for line in self.child.stdout:
            if line.endswith(b"\n"):
                self.lines.append(line.decode().rstrip("\n"))
                self.hear(self.lines[-1].split(" ")[0]).put(self.lines[-1])
        with self.lock:
            self.is_gone = True
            for heard in self.heard.values():
                heard.put(None)

    def hear(self, word):
        """Where the lines come that begin with a word; after them None, when the server is gone."""
        with self.lock:
            if word not in self.heard:
                self.heard[word] = queue.SimpleQueue()
                if self.is_gone:
                    self.heard[word].put(None)
            return self.heard[word]

    def send(self, text):
        """Sends bytes, or what of them a server takes that is killed meanwhile."""
        try:
            while text:
                text = text[os.write(self.child.stdin.fileno(), text) :]
        except BrokenPipeError:
            pass

    def say(self, *lines):
        """Sends lines, at most 4,096 bytes at once, between which another thread's can't come."""
        self.said += lines
        self.send("".join(f"{line}\n" for line in lines).encode())

    def asked(self, line):
        """The reply to a line, or None."""
        heard = self.hear(line.split(" ")[0])
        self.say(line)
        return heard.get()

    def kill(self):
        """Kills the server, and waits for what it has said."""
        self.child.kill()
        self.reader.join()

    def end(self):
        """Ends the input, and waits for the last lines: the server's status. Nobody may be sending."""
        self.child.stdin.close()
        self.reader.join()
        self.child.stdout.close()
        return self.child.wait()


class Session:
    """A session that carries one part after the other through the cell, and works the machine at which its part stands."""

    def __init__(self, number, routes, chance):
        self.number, self.routes, self.chance = number, routes, chance
        self.granted, self.asked, self.faults = [], None, []
        self.job, self.kind, self.place, self.is_waiting = number * 10_000, None, None, False

    def step(self):
        """What it asks next, which may also be a step too early."""
        if self.place is None:
            self.kind = self.kind or self.chance.choice(list(self.routes))
            return f"load {self.job} {self.kind}"
        route = self.routes[self.kind]
        if self.is_waiting:
            return f"process {route[self.place].split(':')[0]}"
        is_last = self.place == len(route) - 1
        return f"{'unload' if is_last or self.chance.random() < 0.1 else 'move'} {self.job}"

    def take(self, reply):
        """Takes the reply to the step that was asked."""
        step, self.asked = self.asked, None
        self.is_waiting = reply.endswith(" refused not-processed")
        if not reply.endswith(" granted"):
            return
        self.granted.append(step)
        verb = step.split(" ")[0]
        if verb == "unload":
            self.job, self.kind, self.place = self.job + 1, None, None
        elif verb != "process":
            self.place = 0 if self.place is None else self.place + 1

    def ask_on(self, server, stop):
        """Asks one step after the other, and now and then a question, until the server is gone or it is to stop. Every second step may wait."""
        while not stop.is_set():
            if self.chance.random() < 0.1 and not self.counts(server):
                return
            step, may_wait = self.step(), self.chance.random() < 0.5
            if self.chance.random() < 0.2:
                server.say(self.question(step))
            self.asked = step
            reply = server.asked(f"{self.number} {'wait ' * may_wait}{self.asked}")
            if may_wait and self.is_told(reply, "waits"):
                reply = self.wait_on(server, stop)
            if reply is None:
                return
            if not self.is_told(reply, *ANSWERS) or may_wait and self.is_told(reply, "refused saturated"):
                self.faults.append(f"asked {self.asked}, and told {reply}")
            self.take(reply)

    def question(self, step):
        """A question of the cell, of its job, or of a step."""
        return self.chance.choice(QUESTIONS).replace("JOB", str(self.job)).replace("STEP", step)

    def is_told(self, line, *words):
        """Whether a line says of the step that was asked one of these words."""
        return line is not None and line.startswith(tuple(f"{self.number} {self.asked} {word}" for word in words))

    def wait_on(self, server, stop):
        """Waits, and meanwhile asks now and then, also for a step, which it may not, or gives up: what came of its own, or None where nothing
        came."""
        heard, end, due = server.hear(str(self.number)), None, 0
        while end is None or due:
            try:
                line = heard.get(timeout=self.chance.uniform(0, WAIT_SECONDS))
            except queue.Empty:
                if stop.is_set() and not due:
                    return None
                if end is None and self.chance.random() < 0.5:
                    server.say(self.question(self.asked), f"{self.number} {self.chance.choice(MEANWHILE)}")
                    due += 1
                continue
            if line is None:
                heard.put(None)
                return end
            if self.is_told(line, "served", "dropped"):
                end = line.replace(" served", " granted").replace(" dropped ", " refused ")
            elif line == f"{self.number} cancel {self.asked}":
                end, due = f"{self.number} {self.asked} refused cancelled", due - 1
            elif line.split(" ")[1] in ("cancel", "grants", "last", "unload"):
                due -= 1
            else:
                self.faults.append(f"{self.asked} waits, and told {line}")
        return end

    def counts(self, server):
        """Asks how many steps were granted, and which was the last; after a kill that may be the one that was asked before it. Whether the
        server answered."""
        reply = server.asked(f"{self.number} grants")
        if reply is None:
            return False
        if self.asked and reply == f"{self.number} grants {len(self.granted) + 1}":
            self.take(f"{self.number} {self.asked} granted")
        elif reply != f"{self.number} grants {len(self.granted)}":
            self.faults.append(f"{len(self.granted)} granted, {self.asked} asked, and told {reply}")
        self.asked = None
        reply = server.asked(f"{self.number} last")
        last = self.granted[-1] if self.granted else "none"
        if reply not in (None, f"{self.number} last {len(self.granted)} {last}"):
            self.faults.append(f"{len(self.granted)} granted, and told {reply}")
        return reply is not None
