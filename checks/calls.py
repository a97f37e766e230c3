"""A call of each command, for the checks that try them all: the line in which the program lists its commands, with what it doesn't say.

A call is a verb and then words in capitals. STEP, NUMBER and FROM are typed; LINES stand in standard input; each other one is a file, which the
check makes. A `+` stands before a journal to which the command may add.
"""
from usage_line import commands

# The commands that may add to their journal, and those that read lines of standard input.
ADDING = {"run", "drain", "begin", "follow", "serve"}
READING_LINES = {"serve"}
# The statuses beside 0 with which a command may end where no file and no word is refused.
OTHER_ENDS = {"check": [1], "carry": [10], "begin": [10], "feed": [10], "follow": [10]}
# What stands for a second cell.
KINDS = {"CELL1": "CELL", "CELL2": "OTHER"}
# What is typed, where a check doesn't choose it.
TYPED = {"STEP": "load 8 Z", "NUMBER": "1", "FROM": "0"}


def every_call(program):
    """A call of each command of the program, with the statuses with which it may end where no file and no word is refused."""
    return [(call_of(verb, words), [0, *OTHER_ENDS.get(verb, [])]) for verb, words in commands(program).items()]


def call_of(verb, words):
    """The call of a command with these words after its verb."""
    kinds = [KINDS.get(word, word) for word in words]
    marked = ["+" + kind if kind == "JOURNAL" and verb in ADDING else kind for kind in kinds]
    return " ".join([verb, *marked, *(["LINES"] if verb in READING_LINES else [])])


def typed(call):
    """The words of a call as they are typed, with those files in capitals that the check makes."""
    words = call.replace("+", "").split()
    return [TYPED.get(word, word) for word in words if word != "LINES"]
