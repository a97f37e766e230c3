#!/usr/bin/env python3
"""Lets several programs ask one server: examples/dispatcher.py SOCKET PROGRAM CELL JOURNAL

SOCKET is where the programs connect (a Unix socket), and PROGRAM the controller, which serves CELL on JOURNAL as a child of this script.
Each line of a connection is a line to the server, and gets its reply there, and so does a step that waits the end of its wait. The
connections are served side by side, so what they ask at the same time shares its syncs.

A session belongs to the connection that used it first, until that ends; a line of another one is told `refused session-taken`. Where a
connection ends, its waits are cancelled. Where a reply can't be had, since the server was killed, the connection ends: connect again, and
ask `K grants` first. The script ends when the server does for another cause, with its status; at a SIGTERM or a Ctrl-C it lets the server
end in order, and ends with 0.

It needs `client.py` beside it, and Python 3.9 or later. Whoever may write to SOCKET may ask: the umask decides.
"""
import contextlib
import functools
import pathlib
import queue
import re
import select
import signal
import socket
import socketserver
import sys
import threading

from client import Cell, NoRequest, Stopped, words_of


class Connection(socketserver.StreamRequestHandler):
    """A program that is connected: its lines go to the server, one at a time, and what comes of them goes back in the server's order."""

    def setup(self):
        super().setup()
        self.sessions, self.waits = set(), set()  # those that it used first, and of these the ones that have waited
        self.is_over, self.over = False, threading.Event()
        self.out = queue.Queue()
        threading.Thread(target=self.write, daemon=True).start()

    def handle(self):
        with contextlib.suppress(ConnectionError):  # the program is gone
            for line in self.rfile:
                if self.is_over or not line.endswith(b"\n"):
                    return  # it was cut off
                self.answer(line.decode(errors="surrogateescape").rstrip("\n"))  # any bytes, which are handed on as they are

    def finish(self):
        """Cancels the waits, and lets the sessions go."""
        for session in self.waits:
            with contextlib.suppress(Stopped):
                self.server.cell.say(f"{session} cancel")
        self.out.join()
        with self.server.owning:
            for session in self.sessions:
                del self.server.owners[session]
        self.over.set()
        self.out.put(None)
        super().finish()

    def answer(self, line):
        """Answers a line, and waits until that is written."""
        session = re.match("([1-9][0-9]{0,4}) ", line)
        if session and not self.owns(session[1]):
            self.out.put(f"{words_of(line)} refused session-taken\n")
        else:
            replied = threading.Event()
            self.server.cell.send(line, functools.partial(self.take, line, replied))
            replied.wait()
        self.out.join()

    def take(self, line, replied, said):
        """Takes what came of a line: its reply, or later how its wait ended."""
        words = words_of(line)
        if isinstance(said, NoRequest):
            self.out.put("line refused\n")
        elif isinstance(said, str):
            if words != line and said.startswith("waits "):
                self.waits.add(words.split(" ")[0])
            if said != "cancelled":
                self.out.put(f"{words} {said}\n")
        else:
            self.end(said)
        replied.set()

    def end(self, stopped):
        """Ends the connection, since the server was killed, or the script, since it has stopped."""
        self.is_over = True
        with contextlib.suppress(OSError):
            self.connection.shutdown(socket.SHUT_RD)
        if stopped:
            self.server.stopped = stopped
            threading.Thread(target=self.server.shutdown).start()

    def write(self):
        """Writes what there is to be written. Where the program is gone it is lost, and `K grants` tells the next one."""
        while (line := self.out.get()) is not None:
            with contextlib.suppress(OSError):
                self.connection.sendall(line.encode(errors="surrogateescape"))
            self.out.task_done()

    def owns(self, session):
        """Whether a session belongs to this connection: no other one used it first, or that one has ended."""
        while True:
            with self.server.owning:
                owner = self.server.owners.setdefault(session, self)
                if owner is self:
                    self.sessions.add(session)
                    return True
                if not owner.is_closed():
                    return False
            owner.over.wait()

    def is_closed(self):
        """Whether the program has closed its end."""
        closed = select.poll()
        closed.register(self.connection, select.POLLRDHUP)
        return bool(closed.poll(0))


class Dispatcher(socketserver.ThreadingUnixStreamServer):
    """The socket to which the programs connect, and the connection to which each session belongs."""

    daemon_threads = True
    stopped = None

    def __init__(self, place, cell):
        super().__init__(place, Connection)
        self.cell, self.owners, self.owning = cell, {}, threading.Lock()


def end(*_):
    """Ends the script: on its way out the input of the server is closed, and the server ends with its plan."""
    raise SystemExit


def main():
    place, program, cell, journal = sys.argv[1:]
    signal.signal(signal.SIGTERM, end)
    signal.signal(signal.SIGINT, end)
    pathlib.Path(place).unlink(missing_ok=True)
    try:
        with Cell(program, "serve", cell, journal) as served, Dispatcher(place, served) as dispatcher:
            dispatcher.serve_forever()
            raise dispatcher.stopped
    except Stopped as stopped:
        print(f"the server has ended with status {stopped.args[0]}: {stopped.args[1]}", file=sys.stderr)
        sys.exit(stopped.args[0])
    finally:
        pathlib.Path(place).unlink(missing_ok=True)


if __name__ == "__main__":
    main()
