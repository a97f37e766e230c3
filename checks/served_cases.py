"""Cases of `serve` over real pipes: strange input, clients that are slow, gone or stopped, each status, and the order of the calls."""
import collections
import errno
import os
import pathlib
import re
import signal
import socket
import statistics
import subprocess
import sys
import time
from concurrent.futures import ThreadPoolExecutor

from journal_file import granted, journal
from referee import MOST_WAITERS, Referee
from served import CellFile, Server, servers_of, within

HERE = pathlib.Path(__file__).resolve().parent
sys.path.insert(0, str(HERE.parent / "examples"))
from client import Cell  # noqa: E402

# How many bytes the server reads at once, and how many lines share their syncs.
PIECE_BYTES, GROUP_LINES = 65_536, 512
# Lines with their replies on the cell of two machines, from the empty cell on.
TALK = [
    ("next", "none"),
    ("room", "1572864"),
    ("65535 last", "0 none"),
    ("1 load 7 A", "granted"),
    ("2 load 8 Z", "refused saturated M2 1 of 1"),
    ("1 move 7", "refused not-processed"),
    ("why process M1", "granted"),
    ("job 7", "A 0 M1 waiting"),
    ("65535 process M1", "granted"),
    ("1 grants", "1"),
    ("1 last", "1 load 7 A"),
    ("65535 last", "1 process M1"),
    ("job 7", "A 0 M1 done"),
    ("job 8", "none"),
    ("left", "1"),
    ("next", "move 7"),
    ("1 move 7", "granted"),
    ("why load 9 Z", "refused saturated M2 1 of 1"),
    ("1 load 7 A", "refused job-loaded"),
    ("1 move 7 1", "refused not-processed"),
    ("3 process M2", "granted"),
    ("1 move 7 1", "refused at-last"),
    ("1 unload 7", "granted"),
    ("4 unload 7", "refused no-such-job"),
    ("left", "0"),
    ("room", "1572859"),
    ("4 place 9 A 1 waiting", "granted"),
    ("4 place 9 A 1 waiting", "refused job-loaded"),
    ("5 place 10 A 1 done", "refused saturated M2 1 of 1"),
    ("job 9", "A 1 M2 waiting"),
    ("4 last", "1 place 9 A 1 waiting"),
    ("4 unload 9", "refused not-processed"),
    ("4 process M2", "granted"),
    ("next", "unload 9"),
    ("4 unload 9", "granted"),
    ("2 load 8 Z", "granted"),
    ("2 process M1", "refused idle"),
    ("2 unload 8", "refused not-processed"),
    ("2 process M2", "granted"),
    ("2 unload 8", "refused not-last"),
    ("2 move 8 7", "refused no-branch"),
    ("1 grants", "3"),
    ("5 grants", "0"),
]
TAIL = ["left 1", "plan 3", "move 8", "process M1", "unload 8"]
# Lists after the talk.
LISTED = [
    ("parts", ["parts 1", "part 8 Z 0 M2 done"]),
    ("jobs load 9 A", ["jobs load 9 A 1", "job 8 Z 0 M2 done"]),
    ("jobs move 8", ["jobs move 8 0"]),
]
# Lines of sessions that wait, and lists, with what is told of each, from the empty cell on. The unload lets two go on, one after the other.
WAITS = [
    ("1 load 7 Z", ["1 load 7 Z granted"]),
    ("2 wait load 8 Z", ["2 load 8 Z waits saturated M2 1 of 1"]),
    ("jobs load 8 Z", ["jobs load 8 Z 1", "job 7 Z 0 M2 waiting"]),
    ("jobs process M2", ["jobs process M2 0"]),
    ("3 wait load 9 A", ["3 load 9 A waits saturated M2 1 of 1"]),
    ("4 load 9 A", ["4 load 9 A refused saturated M2 1 of 1"]),
    ("2 load 8 Z", ["2 load 8 Z refused already-waiting"]),
    ("2 wait load 8 A", ["2 load 8 A refused already-waiting"]),
    ("2 place 8 Z 0 done", ["2 place 8 Z 0 done refused already-waiting"]),
    ("2 grants", ["2 grants 0"]),
    ("4 cancel", ["4 cancel none"]),
    ("3 cancel", ["3 cancel load 9 A"]),
    ("3 cancel", ["3 cancel none"]),
    ("3 wait move 7", ["3 move 7 refused not-processed"]),
    ("3 wait load 9 Z", ["3 load 9 Z waits saturated M2 1 of 1"]),
    ("1 process M2", ["1 process M2 granted"]),
    ("1 wait move 7", ["1 move 7 granted", "2 load 8 Z served"]),
    ("parts", ["parts 2", "part 7 Z 1 M1 waiting", "part 8 Z 0 M2 waiting"]),
    ("jobs load 10 A", ["jobs load 10 A 1", "job 7 Z 1 M1 waiting"]),
    ("2 grants", ["2 grants 1"]),
    ("2 last", ["2 last 1 load 8 Z"]),
    ("2 process M2", ["2 process M2 granted"]),
    ("2 wait move 8", ["2 move 8 waits saturated M1 1 of 1"]),
    ("1 process M1", ["1 process M1 granted"]),
    ("1 unload 7", ["1 unload 7 granted", "2 move 8 served", "3 load 9 Z served"]),
    ("5 wait load 10 Z", ["5 load 10 Z waits saturated M2 1 of 1"]),
    ("6 wait load 11 Z", ["6 load 11 Z waits saturated M2 1 of 1"]),
    ("7 wait load 10 A", ["7 load 10 A waits saturated M1 1 of 1"]),
    ("2 process M1", ["2 process M1 granted"]),
    ("2 unload 8", ["2 unload 8 granted"]),
    ("4 place 10 Z 1 waiting", ["4 place 10 Z 1 waiting granted", "5 load 10 Z dropped job-loaded", "7 load 10 A dropped job-loaded"]),
    ("5 cancel", ["5 cancel none"]),
    ("3 process M2", ["3 process M2 granted"]),
    ("3 wait move 9", ["3 move 9 waits saturated M1 1 of 1"]),
]
STILL = ["6 load 11 Z still saturated M2 1 of 1", "3 move 9 still saturated M1 1 of 1",
         "left 2", "plan 5", "process M1", "unload 10", "move 9", "process M1", "unload 9"]
# The same, and the cell is empty again, and nobody waits.
WAITS_ROUND = [
    *WAITS,
    ("6 cancel", ["6 cancel load 11 Z"]),
    ("4 process M1", ["4 process M1 granted"]),
    ("4 unload 10", ["4 unload 10 granted", "3 move 9 served"]),
    ("3 process M1", ["3 process M1 granted"]),
    ("3 unload 9", ["3 unload 9 granted"]),
]
# The first of these lines that is granted.
LOADS = TALK.index(("1 load 7 A", "granted"))
# The talk, and the cell is empty again.
ROUND = [*TALK, ("2 move 8", "granted"), ("2 process M1", "granted"), ("2 unload 8", "granted")]
# No request each.
GARBAGE = [
    b"", b" ", b"1", b"1 ", b"load 7 A", b"0 load 7 A", b"65536 load 7 A", b"01 load 7 A", b"-1 load 7 A", b"+1 load 7 A", b"1  load 7 A",
    b" 1 load 7 A", b"1 load 7 A ", b"1 load 7 A\r", b"1\tload 7 A", b"1 load 07 A", b"1 load 4294967296 A", b"1 load 7 B", b"1 load 7",
    b"1 load 7 A A", b"1 LOAD 7 A", b"1 process M3", b"1 process", b"1 move 7 0", b"1 move 7 8", b"1 move -7", b"1 unload",
    b"1 unload 7 1", b"1 place 7 A 2 done", b"1 place 7 A 0", b"1 place 7 A 0 gone", b"1 place 7 B 0 done", b"1 place 7 A 00 done",
    b"place 7 A 0 done", b"0 place 7 A 0 done", b"1 last 0", b"0 last", b"last", b"1 Last", b"1 next", b"next 1", b"Next", b"1 room",
    b"room 1", b"job", b"job ", b"job 07", b"job 7 A", b"job A", b"job 4294967296", b"1 job 7",
    b"1 grants 0", b"1 grant", b"grants", b"0 grants", b"65536 grants",
    b"parts 1", b"1 parts", b"Parts", b"part", b"jobs", b"jobs ", b"jobs 7", b"jobs load 7 A 1", b"1 jobs load 7 A", b"jobs place 7 A 0 done",
    b"1 left", b"left 0", b"Left", b"left ", b"why", b"why ", b"why left", b"why 1 load 7 A", b"why place 7 A 0 done", b"1 why load 7 A",
    b"1 wait", b"1 wait ", b"wait load 7 A", b"0 wait load 7 A", b"1 wait wait load 7 A", b"1  wait load 7 A", b"1 wait place 7 A 0 done",
    b"1 wait grants", b"1 wait left", b"1 wait load 7 A 1", b"1 Wait load 7 A", b"why wait load 7 A", b"cancel", b"0 cancel", b"1 cancel 0",
    b"1 cancel load 7 A", b"1 Cancel", b"1 load 7 A served", b"1 load 7 A granted", b"plan", b"plan 0", b"drain", b"exit", b"quit", b"help", b"\0", b"1 load 7 A\0", b"\xff\xfe",
    b"1 load 7 \xc3\x84", b"\x1b[A", b"shift 0 after 0", b"line refused 1", b"1 load " + b"7" * 60 + b" A", b"x" * 65, b"x" * 66,
    b"x" * 67, b"1 load 7 A" + b"A" * 4096, b"9" * 1_000_000, b"1 load 7 A" + b"\0" * 1_000_000,
]


def told(lines):
    """The replies to lines of the talk."""
    return [f"{line} {reply}" for line, reply in lines]


def sent(lines):
    """Lines of the talk as a client sends them."""
    return "".join(f"{line}\n" for line, _ in lines).encode()


def text_of(lines):
    """Lines as a server prints them."""
    return "".join(f"{line}\n" for line in lines)


def without_plan(text):
    """What was printed before the last lines."""
    return text[: text.rindex("left ")]


def talks(wrong, cell, folder):
    """The talk at once, in pieces of some sizes, and line by line."""
    whole = text_of(["shift 0 after 0", *told(TALK), *TAIL])
    file = folder / "journal"
    wrong.see("the talk at once", cell.served(file, sent(TALK)), (0, whole))
    wrong.see("its journal", cell.entries(file), granted(cell.numbers, told(TALK), 0))
    asked = b"1 grants\n2 grants\n65535 grants\n0 grants\n4 last\njob 8\nroom\n"
    again = ["shift 0 after 10", "1 grants 3", "2 grants 2", "65535 grants 1", "line refused 4", "4 last 3 unload 9", "job 8 Z 0 M2 done",
             "room 1572854", *TAIL]
    wrong.see("on its journal", cell.served(file, asked), (0, text_of(again)))
    wrong.see("no line", cell.served(folder / "empty", b""), (0, text_of(["shift 0 after 0", "left 0", "plan 0"])))
    wrong.see("its journal", (folder / "empty").read_bytes(), journal(cell.text, []))
    for piece in (1, 2, 3, 7, 66, 67, 68):
        file = folder / f"pieces of {piece}"
        server = Server(cell, file)
        for at in range(0, len(sent(TALK)), piece):
            server.send(sent(TALK)[at : at + piece])
            time.sleep(0.0002)
        wrong.see(f"the talk in pieces of {piece}", (server.end(), text_of(server.lines)), (0, whole))
        wrong.see(f"its journal, in pieces of {piece}", cell.entries(file), granted(cell.numbers, told(TALK), 0))
    server = Server(cell, folder / "line by line")
    wrong.see("the talk line by line", [server.asked(line) for line, _ in TALK], told(TALK))
    server.end()


def told_of(lines):
    """What is told of lines with waits."""
    return [line for _, all_told in lines for line in all_told]


def waits(wrong, cell, folder):
    """Sessions wait: at once, in pieces of some sizes, and up to each line, where the input ends or the server is killed."""
    for piece in (1_000_000, 1, 2, 3, 7, 66, 67, 68):
        file = folder / f"pieces of {piece}"
        server = Server(cell, file)
        for at in range(0, len(sent(WAITS)), piece):
            server.send(sent(WAITS)[at : at + piece])
            time.sleep(0.0002)
        wanted = 0, ["shift 0 after 0", *told_of(WAITS), *STILL]
        wrong.see(f"waits in pieces of {piece}", (server.end(), server.lines), wanted)
        wrong.see(f"their journal, in pieces of {piece}", cell.entries(file), granted(cell.numbers, told_of(WAITS), 0))
    for count in range(len(WAITS)):
        file, referee = folder / f"{count} lines", Referee(cell.text)
        for line in told_of(WAITS[:count]):
            referee.hear(line)
        wanted = 0, text_of(["shift 0 after 0", *told_of(WAITS[:count]), *referee.last_lines()])
        wrong.see(f"{count} lines with waits", cell.served(file, sent(WAITS[:count])), wanted)
        file.unlink()
        server = Server(cell, file)
        for line, all_told in WAITS[:count]:
            server.send(f"{line}\n".encode())
        within(10, lambda: len(server.lines) > len(told_of(WAITS[:count])))
        server.kill()
        server.end()
        wrong.see(f"killed after {count} lines with waits", server.lines[1:], told_of(WAITS[:count]))
        grants = len(granted(cell.numbers, told_of(WAITS[:count]), 0))
        nobody = [f"{session} cancel none" for session in range(1, 8)]
        status, text = cell.served(file, "".join(f"{session} cancel\n" for session in range(1, 8)).encode())
        wrong.see(f"nobody waits after the kill after {count} lines", (status, text.splitlines()[:8]), (0, [f"shift 0 after {grants}", *nobody]))


def store_of(program, folder, places):
    """A cell of one resource with so many places."""
    file = folder / "store.toml"
    file.write_text(f'version = 1\n[[resource]]\nname = "R"\ncapacity = {places}\n[[type]]\nname = "K"\nroute = ["R:hold"]\n')
    return CellFile(program, file)


def many_wait(wrong, cell, folder):
    """So many sessions wait as may, and one more. Each is served when its turn has come, or told that it waits still."""
    first, last, full = 2, MOST_WAITERS + 1, "saturated R 1 of 1"
    asked = ["1 load 1 K", *(f"{one} wait load {one} K" for one in range(first, last + 1)), f"{last + 1} wait load {last + 1} K", "1 unload 1",
             f"{last + 1} wait load {last + 1} K", *(f"{one} unload {one}" for one in range(first, first + 10))]
    wanted = ["shift 0 after 0", "1 load 1 K granted", *(f"{one} load {one} K waits {full}" for one in range(first, last + 1)),
              f"{last + 1} load {last + 1} K refused waiters-full", "1 unload 1 granted", f"{first} load {first} K served",
              f"{last + 1} load {last + 1} K waits {full}"]
    for one in range(first, first + 10):
        wanted += [f"{one} unload {one} granted", f"{one + 1} load {one + 1} K served"]
    wanted += [*(f"{one} load {one} K still {full}" for one in range(first + 11, last + 2)), "left 1", "plan 1", f"unload {first + 10}"]
    found = store_of(cell.program, folder, 1).served(folder / "journal", text_of(asked).encode())
    wrong.see(f"{MOST_WAITERS} sessions wait", found, (0, text_of(wanted)))


def long_lists(wrong, cell, folder):
    """Lists of five hundred parts, of which not all fit into one group, between the steps that change them; all is sent at once."""
    count = 500
    store = store_of(cell.program, folder, count)
    loads = [f"1 load {job} K" for job in range(count)]
    turns = [[f"jobs load {job + count} K", "parts", f"1 unload {job}", "parts", f"1 load {job + count} K"] for job in range(20)]
    asked = [*loads, *(line for turn in turns for line in turn)]
    status, text = store.served(folder / "journal", text_of(asked).encode())
    referee, lines = Referee(store.text), text.splitlines()[1:]
    for line in lines[: -count - 2]:
        referee.hear(line)
    wrong.see("long lists: the status, the grants and the end", (status, len(referee.grants), lines[-count - 2 :]), (0, count + 40, referee.last_lines()))
    wrong.see("long lists: the questions", referee.answered, collections.Counter(line for line in asked if line[0] in "jp"))


def cuts(wrong, cell, folder):
    """The talk is cut at each byte: a last line without its newline is not asked."""
    file = folder / "journal"
    for end in range(len(sent(TALK))):
        file.unlink(missing_ok=True)
        replies = told(TALK[: sent(TALK)[:end].count(b"\n")])
        status, text = cell.served(file, sent(TALK)[:end])
        found = status, without_plan(text), cell.entries(file)
        wrong.see(f"cut after {end} bytes", found, (0, text_of(["shift 0 after 0", *replies]), granted(cell.numbers, replies, 0)))


def garbage(wrong, cell, folder):
    """Lines that are no requests are refused by their number, and change nothing."""
    wanted, lines = ["shift 0 after 0"], []
    for number, line in enumerate(GARBAGE):
        at = number % len(TALK)
        if number < len(TALK):
            lines.append(f"{TALK[at][0]}\n".encode())
            wanted.append(told(TALK)[at])
        lines.append(line + b"\n")
        wanted.append(f"line refused {len(lines)}")
    found = cell.served(folder / "journal", b"".join(lines))
    wrong.see("garbage between good lines", found, (0, text_of([*wanted, *TAIL])))
    wrong.see("its journal", cell.entries(folder / "journal"), granted(cell.numbers, told(TALK), 0))


def longest(wrong, cell, folder):
    """The longest line that asks something has 66 bytes."""
    name, other = "N" * 32, folder / "cell.toml"
    route = ", ".join([f'"{name}"'] * 11)
    other.write_text(f'version = 1\n[[resource]]\nname = "{name}"\ncapacity = 1\n[[type]]\nname = "{name}"\nroute = [{route}]\n')
    line = f"65535 place 4294967295 {name} 10 waiting"
    wanted = ["shift 0 after 0", f"{line} granted", f"65535 last 1 {line[6:]}", f"job 4294967295 {name} 10 {name} waiting",
              f"next process {name}", "line refused 5", "left 1", "plan 2", f"process {name}", "unload 4294967295"]
    lines = f"{line}\n65535 last\njob 4294967295\nnext\n{line}x\n".encode()
    wrong.see(f"a line of {len(line)} bytes", CellFile(cell.program, other).served(folder / "journal", lines), (0, text_of(wanted)))


def many(wrong, cell, folder):
    """A thousand lines at once have the replies that they have one after the other."""
    lines, server = [line for line, _ in ROUND] * 40, Server(cell, folder / "one after the other")
    replies = [server.asked(line) for line in lines]
    status, text = cell.served(folder / "at once", text_of(lines).encode())
    wrong.see(f"{len(lines)} lines at once", (status, text), (server.end(), text_of(server.lines)))
    wrong.see("their replies", server.lines[1 : len(lines) + 1], replies)
    wrong.see("their journal", (folder / "at once").read_bytes(), (folder / "one after the other").read_bytes())


def slow_clients(wrong, cell, folder):
    """A client that doesn't read holds the server up, and loses nothing; one that is gone ends it with status 8."""
    file = folder / "journal"
    child = subprocess.Popen([cell.program, "serve", cell.path, file], stdin=subprocess.PIPE, stdout=subprocess.PIPE)
    os.set_blocking(child.stdin.fileno(), False)
    line, count, rest, quiet = b"why load 7 A\n", 0, b"", time.monotonic()
    while time.monotonic() - quiet < 1 and count < 100_000:
        try:
            rest = rest or line * 100
            taken = os.write(child.stdin.fileno(), rest)
            count, rest, quiet = count + rest[:taken].count(b"\n"), rest[taken:], time.monotonic()
        except BlockingIOError:
            time.sleep(0.01)
    wrong.see("both pipes are full, and the server waits", (child.poll(), count < 100_000), (None, True))
    os.set_blocking(child.stdin.fileno(), True)
    # What a write has left of a line goes on from another thread, while the replies are read.
    text, _ = child.communicate(rest + line)
    lines = text.decode().splitlines()
    wrong.see("all replies after it", (child.returncode, set(lines[1:-2])), (0, {"why load 7 A granted"}))
    wrong.see("how many", len(lines) - 3, count + (rest + line).count(b"\n"))

    child = subprocess.Popen([cell.program, "serve", cell.path, file], stdin=subprocess.PIPE, stdout=subprocess.PIPE)
    child.stdout.readline()
    child.stdout.close()
    begun = TALK[: LOADS + 1]
    child.stdin.write(sent(begun))
    child.stdin.flush()
    wrong.see("a client that is gone", (child.wait(), cell.entries(file)), (8, granted(cell.numbers, told(begun), 0)))
    child.stdin.close()

    server = Server(cell, file)
    os.kill(server.child.pid, signal.SIGSTOP)
    rest = TALK[LOADS + 1 :]
    server.send(sent(rest))
    time.sleep(0.2)
    wrong.see("a server that is stopped says nothing", server.lines, ["shift 0 after 1"])
    os.kill(server.child.pid, signal.SIGCONT)
    wrong.see("and goes on", (server.end(), server.lines), (0, ["shift 0 after 1", *told(rest), *TAIL]))


def beside(wrong, cell, folder):
    """Beside a server others look into its journal, and nobody adds to it; and one after the other `run` and `serve` go on with one
    another's parts."""
    file, shift, start = folder / "journal", folder / "shift.toml", folder / "start"
    fault = 7, "device fault\n"
    shift.write_text('version = 1\nnumber = 3\npatience = 1\n[[session]]\nsteps = ["process M1", "move 7"]\n')
    start.write_text("place 7 A 0 waiting\n")
    server = Server(cell, file)
    wrong.see("a server is asked", server.asked("1 load 7 A"), "1 load 7 A granted")
    wrong.see("a second server", cell.served(file, b"2 load 8 Z\n"), fault)
    for command in (("drain", file), ("run", shift, file), ("begin", start, file)):
        wrong.see(f"{command[0]} beside a server", cell.told(*command), fault)
    plan = ["left 1", "plan 4", "process M1", "move 7", "process M2", "unload 7"]
    looks = ((("plan", file), ["shift 0 after 1", *plan]), (("grants", file), ["shift 0 after 0", "1 load 7 A granted", *plan]),
             (("why", file, "move 7"), ["refused not-processed"]), (("carry", file, cell.path), ["place 7 A 0 waiting"]))
    for command, wanted in looks:
        wrong.see(f"{command[0]} beside a server", cell.told(*command), (0, text_of(wanted)))
    wrong.see("parts beside a server", cell.told("parts", file)[1].splitlines()[1], "part 7 A 0 waiting")
    wrong.see("the server goes on", server.asked("1 grants"), "1 grants 1")
    wrong.see("and ends", server.end(), 0)
    ran = text_of(["shift 3 after 1", "1 process M1 granted", "1 move 7 granted", "left 1", "plan 2", "process M2", "unload 7"])
    wrong.see("run after it", cell.told("run", shift, file), (0, ran))
    served = text_of(["shift 0 after 3", "1 grants 1", "1 process M2 granted", "1 unload 7 granted", "1 load 8 Z granted", "left 1",
                      "plan 4", "process M2", "move 8", "process M1", "unload 8"])
    wrong.see("serve after that", cell.served(file, b"1 grants\n1 process M2\n1 unload 7\n1 load 8 Z\n"), (0, served))
    wrong.see("drain after that", cell.told("drain", file)[1].splitlines()[-2:], ["left 0", "plan 0"])
    wrong.see("serve at the end", cell.served(file, b"1 grants\n"), (0, text_of(["shift 0 after 10", "1 grants 4", "left 0", "plan 0"])))


def statuses(wrong, cell, folder):
    """Each status but 0, 8 and 9, and what is printed then."""
    file, line = folder / "journal", b"1 load 7 A\n"

    def ended(*words, **streams):
        streams = {"stdin": subprocess.DEVNULL, "stdout": subprocess.PIPE, "check": False, **streams}
        done = subprocess.run([cell.program, *map(str, words)], **streams)
        return done.returncode, done.stdout.decode()

    for words in (["serve"], ["serve", cell.path], ["serve", cell.path, file, "1"]):
        status, text = ended(*words)
        wrong.see(f"{len(words)} words", (status, text.split(" ")[0], text.count("\n")), (2, "usage:", 1))
    wrong.see("no cell", ended("serve", folder / "none", file), (3, "read fault\n"))
    broken = folder / "broken.toml"
    broken.write_bytes(cell.text.replace(b"capacity = 1", b"capacity = 0", 1))
    wrong.see("a cell that is refused", ended("serve", broken, file), (4, "cell refused 5 resource 0 capacity\n"))
    wrong.see("no journal is made", file.exists(), False)
    other = folder / "other"
    other.write_bytes(journal(cell.text.replace(b"order = 2", b"order = 3"), []))
    at = cell.text.index(b"order = 2") + 8
    wrong.see("the journal of another cell", ended("serve", cell.path, other), (6, f"journal refused 2 {at}\n"))
    wrong.see("a folder as a journal", ended("serve", cell.path, folder), (7, "device fault\n"))
    handle = os.open(folder, os.O_RDONLY)
    wrong.see("a folder as input", ended("serve", cell.path, file, stdin=handle), (3, "shift 0 after 0\nread fault\n"))
    os.close(handle)
    reading, writing = os.pipe()
    os.set_blocking(reading, False)
    os.write(writing, line)
    lost = text_of(["shift 0 after 0", "1 load 7 A granted", "read fault"])
    wrong.see("input that doesn't wait", ended("serve", cell.path, file, stdin=reading), (3, lost))
    wrong.see("its journal", cell.entries(file), granted(cell.numbers, ["1 load 7 A granted"], 0))
    os.close(reading)
    os.close(writing)
    with open("/dev/full", "wb") as full:
        status, _ = cell.served(file, b"1 process M1\n", stdout=full)
    wrong.see("an output that is full", (status, len(cell.entries(file))), (8, 1))


def full_journals(wrong, cell, folder):
    """A journal takes so many grants that a drain has room after them, and while sessions wait one less for each of them."""
    file, most = folder / "journal", 1_572_864
    step = ["1 load 7 A", "2 process M1", "1 move 7", "2 process M2", "1 unload 7"]
    turn = [cell.entry(int(one[0]), one[2:]) for one in step]
    entries = (turn * (most // len(turn) + 1))[: most - 1]
    file.write_bytes(journal(cell.text, entries))
    last, over = step[(most - 1) % 5], step[most % 5]
    found = cell.served(file, f"3 wait load 8 Z\n1 unload 9\n{last}\nleft\n".encode())
    wanted = [f"shift 0 after {most - 1}", "3 load 8 Z waits saturated M2 1 of 1", "1 unload 9 refused no-such-job", f"journal refused 4 {most + 1}"]
    wrong.see("a journal with room for one grant, and a session that waits", found, (6, text_of(wanted)))
    server = Server(cell, file)
    wrong.see("a journal with room for one grant", server.head, f"shift 0 after {most - 1}")
    wrong.see("the last grant", server.asked(last), f"{last} granted")
    wrong.see("a refusal after it", server.asked("1 unload 9"), "1 unload 9 refused no-such-job")
    server.send(f"{over}\n".encode())
    server.reader.join()
    wrong.see("a grant too many", (server.end(), server.lines[-1]), (6, f"journal refused 4 {most + 1}"))
    full = cell.served(file, f"why {over[2:]}\n1 unload 9\n{over}\n2 unload 9\n".encode())
    wanted = [f"shift 0 after {most}", f"why {over[2:]} granted", "1 unload 9 refused no-such-job", f"journal refused 4 {most + 1}"]
    wrong.see("a full journal", full, (6, text_of(wanted)))
    wrong.see("drain after it", cell.told("drain", file)[1].splitlines()[-2:], ["left 0", "plan 0"])
    wrong.see("a journal that is too long", cell.served(file, b""), (6, f"journal refused 4 {most + 1}\n"))


def sockets(wrong, cell, folder):
    """A supervisor may hand in one connection as input and output."""
    ours, theirs = socket.socketpair()
    child = subprocess.Popen([cell.program, "serve", cell.path, folder / "journal"], stdin=theirs, stdout=theirs)
    theirs.close()
    with ours, ours.makefile("r") as replies:
        wrong.see("the head line over a socket", replies.readline(), "shift 0 after 0\n")
        for line, reply in TALK:
            ours.sendall(f"{line}\n".encode())
            wrong.see(f"{line} over a socket", replies.readline(), f"{line} {reply}\n")
        ours.shutdown(socket.SHUT_WR)
        wrong.see("the end over a socket", (replies.read().splitlines(), child.wait()), (TAIL, 0))


def dispatched(wrong, cell, folder):
    """Two programs ask one server through the dispatcher of the examples. Each has sessions of its own, and who waits is told there."""
    places, file = (folder / "socket", folder / "second"), folder / "journal"
    words = [[sys.executable, HERE.parent / "examples/dispatcher.py", place, cell.program, cell.path, file] for place in places]
    with open(folder / "told", "wb") as people:
        dispatcher = subprocess.Popen(words[0], stderr=people, env=dict(os.environ, WISHKABE_HINTS="1"))
    programs = [Program(wrong, places[0]) for _ in range(2)]
    for line, reply in [*TALK, ("please", "")]:
        program = programs[line[0] in "24"]
        wrong.see(f"{line} through the dispatcher", program.asked(line), f"{line} {reply}" if reply else "line refused")
    for line, wanted in LISTED:
        wrong.see(f"{line} through the dispatcher", [programs[1].asked(line), *(programs[1].hears() for _ in wanted[1:])], wanted)
    for line in ("\ufeff1 grants", "1 grants\r", "1 Ä \udcff"):
        wrong.see(f"{line!a} through the dispatcher", programs[0].asked(line), "line refused")
    for line in ("2 unload 8", "2 grants", "2 last", "2 cancel", "2 wait unload 8", "2 Ä \udcff"):
        wrong.see(f"{line!a} of another program", programs[0].asked(line), f"{line.replace(' wait', '')} refused session-taken")
    full = "waits saturated M2 1 of 1"
    wrong.see("a program waits", programs[0].asked("1 wait load 9 Z"), f"1 load 9 Z {full}")
    wrong.see("another program waits", programs[1].asked("4 wait load 10 Z"), f"4 load 10 Z {full}")
    programs[0].close()
    programs[0] = Program(wrong, places[0])
    wrong.see("a session of a program that comes again", programs[0].asked("1 grants"), "1 grants 3")
    wrong.see("a wait of a program that is gone", programs[0].asked("1 cancel"), "1 cancel none")
    wrong.see("it waits again", programs[0].asked("1 wait load 9 Z"), f"1 load 9 Z {full}")
    wrong.see("it gives up", programs[0].asked("1 cancel"), "1 cancel load 9 Z")
    wrong.see("the first to wait is served", programs[1].asked("2 move 8"), "2 move 8 granted")
    wrong.see("it is told", programs[1].hears(), "4 load 10 Z served")
    wrong.see("it waits once more", programs[1].asked("4 wait load 11 Z"), f"4 load 11 Z {full}")
    for server in servers_of(file):
        os.kill(server, signal.SIGKILL)
    wrong.see("a connection that waits ends with its server", programs[1].hears(), "")
    programs[1].close()
    programs[1] = Program(wrong, places[0])
    wrong.see("it counts", programs[1].asked("4 last"), "4 last 4 load 10 Z")
    second = subprocess.run(words[1], stderr=subprocess.PIPE, check=False)
    wrong.see("a second dispatcher", (second.returncode, b"device fault" in second.stderr), (7, True))
    dispatcher.terminate()
    wrong.see("a dispatcher that is told to end", dispatcher.wait(), 0)
    told_people = (folder / "told").read_text()
    hints = [told_people.count(f"standard input, a line, which {what}") for what in ("begins with a byte order mark", "ends in a carriage return")]
    wrong.see("its server has told people of both lines", hints, [1, 1])
    wrong.see("its server has ended before it", cell.told("plan", file)[0], 0)
    wrong.see("its socket is gone", places[0].exists(), False)
    more = ["2 move 8 granted", "4 load 10 Z granted"]
    wrong.see("its journal", cell.entries(file), granted(cell.numbers, [*told(TALK), *more], 0))
    for program in programs:
        program.close()


class Program:
    """A program that is connected to a dispatcher."""

    def __init__(self, wrong, place):
        self.end = socket.socket(socket.AF_UNIX)
        wrong.see("a program connects", within(10, lambda: self.end.connect_ex(str(place)) == 0), True)
        self.file = self.end.makefile("rw", encoding="utf-8", errors="surrogateescape", newline="\n")

    def asked(self, line):
        """The reply to a line."""
        print(line, file=self.file, flush=True)
        return self.hears()

    def hears(self):
        """The next line, and an empty text where the connection has ended."""
        return self.file.readline().rstrip("\n")

    def close(self):
        self.file.close()
        self.end.close()


def asked_in_python(wrong, cell, folder):
    """The client in Python asks the questions, and waits."""
    file = folder / "journal"
    with Cell(cell.program, "serve", str(cell.path), str(file)) as asked, ThreadPoolExecutor() as threads:
        wrong.see("its questions at first", (asked.next(), asked.room(), asked.last(1), asked.where(9)), (None, 1_572_864, (0, None), None))
        wrong.see("a part that was put in", asked.ask(1, "place 9 A 1 waiting"), "granted")
        found = asked.next(), asked.room(), asked.last(1), asked.where(9), asked.seen
        wrong.see("its questions then", found, ("process M2", 1_572_863, (1, "place 9 A 1 waiting"), ("A", 1, "M2", False), 1))
        lists = asked.parts(), asked.jobs("load 8 A"), asked.jobs("load 9 A")
        wrong.see("its lists", lists, ({9: ("A", 1, "M2", False)}, {9: ("A", 1, "M2", False)}, {}))
        asked.cancel(2)
        wrong.see("a wait for nothing but room", asked.wait(2, "move 9"), "refused not-processed")
        steps = ((2, "load 7 Z"), (3, "load 8 A"), (4, "load 10 A"), (5, "load 11 A"))
        load, dropped, cancelled, closed = (threads.submit(asked.wait, *step) for step in steps)
        wrong.see("four wait", within(10, lambda: len(asked.ends) == 4), True)
        asked.cancel(4)
        wrong.see("a wait that is cancelled", cancelled.result(10), "refused cancelled")
        wrong.see("another session puts the part in", asked.ask(1, "place 8 Z 1 waiting"), "granted")
        wrong.see("a wait that is dropped", dropped.result(10), "refused job-loaded")
        wrong.see("room is made", [asked.ask(1, step) for step in ("process M2", "unload 9")], ["granted"] * 2)
        wrong.see("a wait that is served", (load.result(10), asked.last(2), asked.seen), ("granted", (1, "load 7 Z"), 5))
        asked.close()
        wrong.see("a wait at the end", closed.result(10), "refused saturated M1 1 of 1")
    steps = ["1 place 9 A 1 waiting", "1 place 8 Z 1 waiting", "1 process M2", "1 unload 9", "2 load 7 Z"]
    wrong.see("its journal", cell.entries(file), [cell.entry(int(step[0]), step[2:]) for step in steps])


def workshop(wrong, cell, folder):
    """The workshop of the examples makes at most 430 requests for its 252 steps, as the median of nine runs."""
    refused = []
    for number in range(9):
        words = [sys.executable, HERE.parent / "examples/live_workshop.py", cell.program, folder / str(number)]
        lines = subprocess.run(words, stdout=subprocess.PIPE, text=True, check=True).stdout
        refused.append(int(re.fullmatch("252 steps granted, ([0-9]+) refused\nleft 0\nplan 0\n", lines)[1]))
    wrong.see(f"the workshop, refused {sorted(refused)}", 252 + statistics.median(refused) <= 430, True)


def library_of(folder, name):
    """A library of this folder, to be loaded before the C library."""
    library = folder / f"{name}.so"
    subprocess.run(["cc", "-O1", "-shared", "-fPIC", "-o", library, HERE / f"{name}.c", "-ldl"], check=True)
    return str(library)


def served_under(cell, file, lines, **outside):
    """How `serve` ends on lines that are there at once, under a library: its status, its output, and what the library counted."""
    count, given = file.with_suffix(".count"), file.with_suffix(".lines")
    given.write_bytes(lines)
    with open(given, "rb") as sending:
        status, text = cell.served(file, stdin=sending, env=dict(os.environ, COUNT=str(count), **outside))
    return status, text, int(count.read_text())


def interrupted(wrong, cell, folder):
    """Each call that a signal cuts short is made again."""
    library, file = library_of(folder, "fail_nth"), folder / "journal"
    for kind in ("open", "read", "pread", "pwrite", "fsync", "fdatasync", "flock", "write"):
        file.unlink(missing_ok=True)
        ample = served_under(cell, file, sent(TALK), LD_PRELOAD=library, KIND=kind)
        entries = cell.entries(file)
        for failing in range(1, ample[2] + 1):
            file.unlink(missing_ok=True)
            told = {"LD_PRELOAD": library, "KIND": kind, "FAIL": str(failing), "ERROR": str(errno.EINTR)}
            status, text, _ = served_under(cell, file, sent(TALK), **told)
            wrong.see(f"{kind} {failing} cut short", (status, text, cell.entries(file)), (*ample[:2], entries))


def memory(wrong, cell, folder):
    """A server asks for no memory after its head line: as often on many lines as on none."""
    library, lines = library_of(folder, "refuse_nth"), sent([*ROUND, *WAITS_ROUND])
    counts = [served_under(cell, folder / str(count), lines * count, LD_PRELOAD=library)[2] for count in (0, 1, 1000)]
    wrong.see("how often memory is asked for", counts, [counts[0]] * 3)


def order_of_writes(wrong, cell, folder):
    """No line `granted` or `served` is written before the sync that makes its grant stable, and lines that come together share their syncs."""
    library, trace = library_of(folder, "fail_nth"), folder / "trace"
    for name, lines, replies in (("a few lines", sent(ROUND), told(ROUND)), ("many lines", sent(ROUND) * 200, told(ROUND) * 200),
                                 ("waits", sent(WAITS_ROUND), told_of(WAITS_ROUND))):
        file = folder / name
        status, text, _ = served_under(cell, file, lines, LD_PRELOAD=library, TRACE=str(trace), WRITES="1")
        wrong.see(f"{name}: the status and the replies", (status, text.count("\n")), (0, 3 + len(replies)))
        grants = len(cell.entries(file))
        stable, syncs = stable_before_told(trace.read_text(), text, 13 + len(cell.text))
        wrong.see(f"{name}: each grant is stable before it is told", stable, grants)
        pieces = [lines[at : at + PIECE_BYTES].count(b"\n") for at in range(0, len(lines), PIECE_BYTES)]
        groups = sum(-(-count // GROUP_LINES) for count in pieces)
        wrong.see(f"{name}: {grants} grants in {groups} groups share {syncs} syncs", syncs, 2 * groups)


def stable_before_told(trace, text, gate):
    """Goes through the calls of a server on a new journal whose first gate stands there: how many grants are told, each of them stable
    before; and how many syncs there were after the opening. At the first grant that is told too early the number is told as text."""
    lines, rest, is_synced = text.splitlines(keepends=True), 0, True
    pending = opened = stable = grants = syncs = 0
    for words in (line.split(" ") for line in trace.splitlines()):
        if words[0] == "pwrite" and int(words[1]) == gate + 1:
            pending, is_synced = int(words[2]) // 17, False
        elif words[0] == "pwrite" and (int(words[1]), int(words[2])) == (gate, 1):
            if not is_synced:
                return f"gate {gate} was opened before a sync", syncs
            opened, gate, pending = opened + pending, gate + 17 * pending, 0
        elif words[0] == "fdatasync":
            syncs, stable, is_synced = syncs + (opened + pending > 0), opened, True
        elif words[0] == "write":
            rest += int(words[1])
            while lines and rest >= len(lines[0]):
                line = lines.pop(0)
                rest -= len(line)
                grants += line.endswith((" granted\n", " served\n")) and not line.startswith("why ")
                if grants > stable:
                    return f"told {grants}, stable {stable}", syncs
    return grants, syncs


CASES = [talks, waits, many_wait, long_lists, cuts, garbage, longest, many, slow_clients, beside, statuses, full_journals, sockets, dispatched,
         asked_in_python, workshop, interrupted, memory, order_of_writes]
