"""The commands as the built program itself lists them: the line that it prints where its words are none, which a proof ties to its words."""
import subprocess


def commands(program):
    """The words of each command after its verb, by the verb."""
    line = subprocess.run([program], stdout=subprocess.PIPE, check=False, text=True).stdout
    forms = [form.split() for form in line.removeprefix("usage: ").strip().split(", ")]
    return {verb: words for verb, *words in forms}
