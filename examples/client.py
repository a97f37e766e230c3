"""A client of `wishkabe serve`, to be copied. Sessions ask for one step at a time, and no step is lost or taken twice.

    with Cell("wishkabe", "serve", "cell.toml", "journal") as cell:
        reply = cell.ask(1, "load 7 A")  # "granted", or "refused saturated M2 1 of 1"
        reply = cell.wait(1, "move 7")  # it waits while there is no room: "granted", or "refused not-processed"

A `Cell` is a running server with the pipes to it. Threads may share one: each asks under session numbers of its own, from 1 to 65,535,
and one step of a session at a time. Where the server is killed it is started again, and the steps that wait for their replies go on.
It needs Python 3.9 or later.
"""
import collections
import itertools
import os
import queue
import re
import subprocess
import threading
import time

ENDS = "served", "dropped", "still"  # how a wait ends
LISTS = "parts ", "jobs "  # with what a list begins


def words_of(line):
    """The words with which the reply to a line begins: its own, but for `wait`."""
    return re.sub("^([0-9]+) wait ", r"\1 ", line)


def place_of(words):
    """Where a part stands: its type, its place of the route, the resource there, and whether its work there is done."""
    kind, place, resource, work = words.split(" ")
    return kind, int(place), resource, work == "done"


class Stopped(Exception):
    """The server has ended for a cause that a new start need not mend: its exit status, and the last line that it printed.

    The status is negative where a signal killed it, and 127 where it can't be started."""


class Behind(Stopped):
    """The journal has fewer grants than were seen: it is another one, or has lost some. 6, as of a refused journal, and the head line."""


class NoRequest(ValueError):
    """The line asks nothing: its words are none of the conversation, or name what the cell doesn't have. Nothing is changed."""


class SharedSession(ValueError):
    """Another client asks under this session number, so its count doesn't tell whose step was granted."""


class Cell:
    """A running server, and how many steps of each session were granted."""

    def __init__(self, *command, at_least=0):
        """Starts the server by these words. Its journal has to have `at_least` so many grants: the `seen` of an earlier run."""
        self.command, self.lock, self.is_closing = command, threading.Lock(), False
        self.waiting, self.taken, self.stopped = collections.deque(), {}, None
        self.waits, self.ends = set(), {}  # the sessions in a call of `wait`, and those that the server lets wait
        self.seen = at_least  # how many grants the journal has, as far as the replies tell
        self._start()
        self.reader = threading.Thread(target=self._read, daemon=True)
        self.reader.start()

    def __enter__(self):
        return self

    def __exit__(self, *_):
        self.close()

    def ask(self, session, step):
        """Asks for a step of a session: `granted` or `refused WHY`."""
        return self._take(session, lambda: self.say(f"{session} {step}"))

    def wait(self, session, step):
        """The same, but where there is no room it waits until others have made some. A refusal then has another reason, or `cancel` or
        `close` has ended the wait."""
        self.waits.add(session)
        try:
            return self._take(session, lambda: self._wait(f"{session} wait {step}"))
        finally:
            self.waits.discard(session)

    def cancel(self, session):
        """Gives up what a session waits for: its `wait` in another thread answers `refused cancelled`, or what it was told before."""
        while self.say(f"{session} cancel") in (None, "none") and session in self.waits:
            time.sleep(0.001)  # the server doesn't have its line yet, or has it no more

    def grants(self, session):
        """How many steps of a session were granted. A client with a list of steps goes on after so many of them."""
        return int(self._told(f"{session} grants"))

    def why(self, step):
        """What a step would be told now: `granted` or `refused WHY`. Nothing is changed."""
        return self._told(f"why {step}")

    def left(self):
        """How many parts are in the cell."""
        return int(self._told("left"))

    def last(self, session):
        """How many steps of a session were granted, and the last of them; None where there is none."""
        count, step = self._told(f"{session} last").split(" ", 1)
        return int(count), None if step == "none" else step

    def where(self, job):
        """Where the part of a job stands: its type, its place of the route, the resource there, and whether its work there is done. None
        where it isn't in the cell."""
        told = self._told(f"job {job}")
        return None if told == "none" else place_of(told)

    def parts(self):
        """Where all parts stand, as `where` tells it, by their jobs: a dictionary in the order in which they came to their places."""
        return self._listed("parts")

    def jobs(self, step):
        """The parts that stand in the way of a step, in the same form. There are some exactly where it would be refused as `saturated`."""
        return self._listed(f"jobs {step}")

    def next(self):
        """The next step of the plan that empties the cell, or None where no part is left."""
        step = self._told("next")
        return None if step == "none" else step

    def room(self):
        """For how many steps more the journal has room."""
        return int(self._told("room"))

    def say(self, line):
        """The reply to a line, after its words, with all lines of a list. None: the server was killed before it came, and is started again."""
        return next(self._replies(line))

    def send(self, line, told):
        """Sends a line. The thread that reads calls `told` with what `say` answers or raises, of a list with all its lines, and after `waits WHY`
        once more with how the wait ends: `served`, `dropped WHY`, `still WHY`, `cancelled`, or None or `Stopped` where the server ended
        before. The bytes of a line that was decoded with `surrogateescape` are sent as they were."""
        sent, fault = f"{line}\n".encode(errors="surrogateescape"), None
        with self.lock:
            if len(sent) > 67 or "\n" in line:
                fault = NoRequest(line)
            elif self.stopped or self.is_closing:
                fault = self.stopped or Stopped(0, "the conversation is closed")
            else:
                self.waiting.append((line, told))
                try:
                    os.write(self.child.stdin.fileno(), sent)
                except OSError:
                    pass  # the server has ended, and the reader comes to the end of its lines
        if fault:
            told(fault)

    def close(self):
        """Ends the conversation, and answers its last lines: how many parts are left, and the plan that brings them out."""
        with self.lock:
            self.is_closing = True
            self.child.stdin.close()
        self.reader.join()
        if self.stopped.args[0] != 0:
            raise self.stopped
        return self.lines

    def _take(self, session, say):
        """Says a step of a session until it is known what came of it."""
        before = self.taken.pop(session, None)  # whoever breaks this call off leaves no count, and the next one asks for it
        if before is None:
            before = self.grants(session)
        while (reply := say()) is None:
            now = self.grants(session)
            if now not in (before, before + 1):
                raise SharedSession(f"session {session} has {now} grants, and had {before}")
            if now > before:
                reply = "granted"
                break
        self.taken[session] = before + (reply == "granted")
        return reply

    def _wait(self, line):
        """The reply to a line with `wait`, and where that waits how it ends. None: the server was killed before."""
        replies = self._replies(line)
        reply = next(replies)
        if reply and reply.startswith("waits "):
            end = next(replies)
            reply = "granted" if end == "served" else end and f"refused {end.split(' ', 1)[-1]}"
        return reply

    def _replies(self, line):
        """Yields what is told of a line."""
        replies = queue.SimpleQueue()
        self.send(line, replies.put)
        while True:
            said = replies.get()
            if isinstance(said, Exception):
                raise said
            yield said

    def _told(self, line):
        """The reply to a line that changes nothing, and so may be said again after a kill."""
        while (reply := self.say(line)) is None:
            pass
        return reply

    def _listed(self, line):
        """The parts of a list by their jobs."""
        items = (item.split(" ", 2) for item in self._told(line).split("\n")[1:])
        return {int(job): place_of(place) for _, job, place in items}

    def _start(self):
        """Starts the server and waits until it is ready. A few times it may be killed before."""
        for _ in range(5):
            # In a session of its own it isn't killed by the Ctrl-C that ends this program: it ends in order, when its input does.
            try:
                self.child = subprocess.Popen(self.command, stdin=subprocess.PIPE, stdout=subprocess.PIPE, start_new_session=True)
            except OSError as fault:
                raise Stopped(127, str(fault)) from fault
            head = self.child.stdout.readline().decode()
            if head.startswith("shift 0 after ") and head.endswith("\n"):
                return self._see(int(head.split(" ")[3]))
            if self.child.wait() >= 0:
                break
        raise Stopped(self.child.returncode, head.rstrip())

    def _see(self, grants):
        """Takes the number of grants that the journal has at the start, or ends the server where there were more."""
        if grants < self.seen:
            self.child.communicate()
            raise Behind(6, f"shift 0 after {grants}, where {self.seen} grants were seen")
        self.seen = grants

    def _read(self):
        """Hands out the replies, which come in the order of the lines, and starts the server again where it was killed."""
        while not self.stopped:
            self.lines = []
            for line in self._said():
                if not line.endswith("\n") or not self._hand_out(line.rstrip("\n")):
                    self.lines.append(line.rstrip("\n"))
            with self.lock:
                lost, self.waiting, self.ends = [*self.waiting, *self.ends.values()], collections.deque(), {}
                self.stopped = Stopped(self.child.wait(), self.lines[-1] if self.lines else "")
                if self.child.returncode < 0:
                    try:
                        self._start()
                        self.stopped = None
                        if self.is_closing:  # the new one tells the last lines
                            self.child.stdin.close()
                    except Stopped as stopped:
                        self.stopped = stopped
            for _, told in lost:
                told(self.stopped)

    def _said(self):
        """Yields each line of the server, and each list with all its lines. What it left of one at its own end has no newline."""
        lines = map(bytes.decode, self.child.stdout)
        for line in lines:
            if line.startswith(LISTS) and line.endswith("\n"):
                count = int(line.split(" ")[-1])
                items = list(itertools.islice(lines, count))
                line = "".join([line, *items])
                line = line if len(items) == count else line.rstrip("\n")
            yield line

    def _hand_out(self, said):
        """Hands out a line that is a reply, or the end of a wait. Whether it is one."""
        session = said.split(" ")[0]
        if session in self.ends and (end := said.removeprefix(self.ends[session][0])).split(" ")[0] in ENDS:
            self.seen += end == "served"
            self.ends.pop(session)[1](end)
            return True
        line, told = self.waiting[0] if self.waiting else ("", None)
        words = f"{words_of(line)} "
        if not told or not said.startswith((words, "line refused ")) or said == f"{words}halted":
            return False
        self.waiting.popleft()
        reply = said.removeprefix(words)
        self.seen += reply == "granted" and not line.startswith("why ")
        if line == f"{session} cancel" and reply != "none" and session in self.ends:
            self.ends.pop(session)[1]("cancelled")
        if words != f"{line} " and reply.startswith("waits "):
            self.ends[session] = words, told
        told(NoRequest(line) if said.startswith("line refused ") else reply)
        return True
