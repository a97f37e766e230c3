"""Plays sessions through `examples/client.py`: player.py AT_LEAST SCRIPT COMMAND.. (see checks/clients)"""
import collections
import pathlib
import sys
import threading
import time

sys.path.insert(0, str(pathlib.Path(__file__).resolve().parents[2] / "examples"))
from client import Behind, Cell, NoRequest, SharedSession, Stopped  # noqa: E402


def go(cell, session, steps, faults):
    """Asks for the steps of a session in turn, each until it is granted or given up. One of an even number waits for room; the step `cancel K`
    lets session K wait no longer."""
    take = cell.wait if session % 2 == 0 else cell.ask
    try:
        for step in steps[cell.grants(session):]:
            rest = 0.001
            if step.startswith("cancel "):
                cell.cancel(int(step.split(" ")[1]))
                continue
            while take(session, step) not in ("granted", "refused cancelled"):
                time.sleep(rest)
                rest = min(2 * rest, 0.1)
    except Exception as fault:
        faults.append(fault)


def play(cell, scripts):
    """All sessions at the same time. The first exception of one of them comes out."""
    faults = []
    threads = [threading.Thread(target=go, args=(cell, session, steps, faults), daemon=True) for session, steps in scripts.items()]
    for thread in threads:
        thread.start()
    for thread in threads:
        thread.join()
    if faults:
        raise faults[0]


def print_list(name, word, parts):
    """Prints how many parts a list has, and each with this word."""
    print(name, len(parts))
    for job, (kind, place, resource, is_done) in parts.items():
        print(word, job, kind, place, resource, "done" if is_done else "waiting")


def main():
    at_least, script, *command = sys.argv[1:]
    scripts = collections.defaultdict(list)
    for line in pathlib.Path(script).read_text().splitlines():
        session, step = line.split(" ", 1)
        scripts[int(session)].append(step)
    try:
        with Cell(*command, at_least=int(at_least)) as cell:
            play(cell, scripts)
            print("seen", cell.seen)
            print("left", cell.left())
            print("why", cell.why("load 1 P1"))
            print_list("parts", "part", cell.parts())
            print_list("jobs", "job", cell.jobs("load 1 P1"))
            print(*cell.close(), sep="\n")
    except Behind as behind:
        print("behind", *behind.args)
    except Stopped as stopped:
        print("stopped", *stopped.args)
    except NoRequest as line:
        print("no request", line)
    except SharedSession:
        print("shared session")


main()
