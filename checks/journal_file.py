"""Journals as the document of formats has them, read and written apart from the program.

A journal is a gate 1, the name `RUNCELL1`, the length of the cell text, the text, and then for each grant a gate 1 and sixteen bytes,
up to the first gate that isn't 1. Resources and types are numbered as the cell file has them.

Whoever takes this module has journals made that weren't there: a program that it calls tells nothing of that, unless it sets the variable
itself.
"""
import hashlib
import os
import pathlib
import struct
import tomllib

os.environ["WISHKABE_HINTS"] = "0"

NAME = b"RUNCELL1"
KINDS = {"load": 1, "process": 2, "move": 3, "unload": 4, "place": 5}


class Numbers:
    """The numbers of a cell's resources and types."""

    def __init__(self, text):
        cell = tomllib.loads(text.decode())
        self.resources = {one["name"]: number for number, one in enumerate(cell["resource"])}
        self.types = {one["name"]: number for number, one in enumerate(cell["type"])}


def entry(numbers, step, session, shift):
    """The sixteen bytes of a step that was granted to a session in a shift."""
    words = step.split(" ")
    kind = KINDS[words[0]]
    job = 0 if words[0] == "process" else int(words[1])
    argument = 0
    if words[0] == "load":
        argument = numbers.types[words[2]]
    if words[0] == "process":
        argument = numbers.resources[words[1]]
    if words[0] == "move" and len(words) == 3:
        argument = int(words[2])
    if words[0] == "place":
        argument = numbers.types[words[2]] << 16 | int(words[3])
    return struct.pack(">BBHIII", kind, words[-1] == "done" and words[0] == "place", session, shift, job, argument)


def step_in(numbers, data):
    """The session of an entry, and the words of its step."""
    kind, is_done, session, _, job, argument = struct.unpack(">BBHIII", data)
    verb = {number: word for word, number in KINDS.items()}[kind]
    words = [verb] if verb == "process" else [verb, str(job)]
    if verb == "load":
        words.append(list(numbers.types)[argument])
    if verb == "process":
        words.append(list(numbers.resources)[argument])
    if verb == "move" and argument:
        words.append(str(argument))
    if verb == "place":
        words += [list(numbers.types)[argument >> 16], str(argument & 0xFFFF), "done" if is_done else "waiting"]
    return [str(session), *words]


def journal(text, entries):
    """The bytes of a journal of these entries."""
    head = b"\x01" + NAME + struct.pack(">I", len(text)) + text
    return head + b"".join(b"\x01" + one for one in entries) + b"\x00"


def entries_in(data, text):
    """The entries of a journal of this text; none where the file is blank, and None where it is no journal."""
    if len(data) < 2 or data[0] == 0 or (data[0] != 1 and data[1:9] == NAME):
        return []
    head = b"\x01" + NAME + struct.pack(">I", len(text)) + text
    if data[: len(head)] != head:
        return None
    found = []
    at = len(head)
    while at < len(data) and data[at] == 1:
        if at + 18 > len(data):
            return None
        found.append(data[at + 1 : at + 17])
        at += 17
    return found if at < len(data) else None


def frames(entries):
    """The frames of these entries: the number of each, from 0, and its bytes."""
    return [struct.pack(">Q", number) + one for number, one in enumerate(entries)]


def granted(numbers, lines, shift):
    """The entries of the lines of a record, or of a server, by which steps were granted."""
    found = []
    for line in lines:
        words = line.split(" ")
        if words[-1] in ("granted", "served") and words[0] != "why":
            found.append(entry(numbers, " ".join(words[1:-1]), int(words[0]), shift))
    return found


def halted_block(numbers, entries):
    """The record of these grants, in whose last line the writing failed: after it the grants may go on with that one counted."""
    if not entries:
        return b""
    lines = [" ".join(step_in(numbers, entry)) for entry in entries]
    block = ["shift 1 after 0", *(f"{line} granted" for line in lines[:-1]), f"{lines[-1]} halted"]
    return "\n".join(block).encode() + b"\n"


def keep(file, cell):
    """Copies a journal and its cell to the folder that KEEP names, each under what the journal holds, where there is such a folder."""
    folder = os.environ.get("KEEP")
    if folder and file.exists():
        data = file.read_bytes()
        kept = pathlib.Path(folder) / hashlib.sha256(data).hexdigest()[:16]
        kept.with_suffix(".journal").write_bytes(data)
        kept.with_suffix(".toml").write_bytes(cell.read_bytes())
