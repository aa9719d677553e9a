"""The table of the stream of calls, tests/calls.txt, and what tests/link needs of it.

  calls.py c     the header calls.h of tests/face/replay.c: sizes, names, and the place of each field
  calls.py face  the exported functions with their words, as `tests/face/declared.py words` has them

What stands in the sources and follows from the table is in tests/calls_written.py.
"""
import re
import sys
from pathlib import Path
from typing import NamedTuple

ROOT = Path(__file__).resolve().parent.parent
TABLE = ROOT / "tests/calls.txt"


class Field(NamedTuple):
    name: str
    at: int  # its first word, from 0; in a call after the number
    words: int


class Function(NamedTuple):
    number: int
    name: str
    face: str  # "" where it is not exported
    call: list
    answer: list

    def bytes_of_call(self):
        return 4 * (1 + words_of(self.call))

    def bytes_of_answer(self):
        return 4 * words_of(self.answer)


def words_of(fields):
    return sum(field.words for field in fields)


def fields(text):
    found, at = [], 0
    for name, words in re.findall(r"(\w+)(?::(\d+))?", text):
        found.append(Field(name, at, int(words or 1)))
        at += found[-1].words
    if len({field.name for field in found}) < len(found):
        sys.exit(f"tests/calls.txt:{text} has a name twice")
    return found


def table():
    lines = [line for line in TABLE.read_text().splitlines() if line and not line.startswith("#")]
    functions = []
    for line in lines:
        row = re.fullmatch(r"(\d+) (\w+) (-|\w+) \|((?: \w+(?::\d+)?)+) \|((?: \w+(?::\d+)?)+)", line)
        if row is None or int(row[1]) != len(functions) + 1:
            sys.exit(f"tests/calls.txt: `{line}` is no line {len(functions) + 1} of the table")
        functions.append(Function(int(row[1]), row[2], row[3].strip("-"), fields(row[4]), fields(row[5])))
    return functions


# ---- C
C_HEAD = """\
/* Made of tests/calls.txt by tests/calls.py. By a function's number, from 1: how many words a call has after the
 * number, how many the answer has, and the exported name. Then each exported function's number, and the places of its
 * fields. */
"""


def c_header(functions):
    def column(kind, name, values):
        return f"static const {kind} {name}[FUNCTIONS] = {{{', '.join(values)}}};"

    most = max(words_of(f.answer) for f in functions)
    lines = [
        f"enum {{ FUNCTIONS = {len(functions) + 1}, MOST_ANSWER_WORDS = {most} }};",
        column("size_t", "call_words", ["0", *(str(words_of(f.call)) for f in functions)]),
        column("size_t", "answer_words", ["0", *(str(words_of(f.answer)) for f in functions)]),
        column("char *const", "names", ['""', *(f'"{f.face}"' for f in functions)]),
    ]
    for f in functions:
        if f.face:
            face = f.face.upper()
            places = [f"{face}_{field.name.upper()} = {field.at}" for field in f.call]
            places += [f"{face}_ANSWER_{field.name.upper()} = {field.at}" for field in f.answer]
            lines.append(f"enum {{ {', '.join([f'{face} = {f.number}', *places])} }};")
    return C_HEAD + "\n".join(lines) + "\n"


# ---- the exported functions
def face(functions):
    """Each by its parameters, a name and its words each, and the words of its answer."""
    lines = []
    for f in functions:
        if f.face:
            parameters = ", ".join(f"{field.name} {field.words}" for field in f.call)
            answer = " ".join(str(field.words) for field in f.answer)
            lines.append(f"urtemval_{f.face}({parameters}) -> {answer}")
    return "\n".join(sorted(lines)) + "\n"


if __name__ == "__main__":
    made = {"c": c_header, "face": face}
    if len(sys.argv) != 2 or sys.argv[1] not in made:
        sys.exit(__doc__)
    print(made[sys.argv[1]](table()), end="")
