"""What follows from the table of the stream of calls (tests/calls.txt) and stands in the sources: the sizes of
`answers`, crates/answers/src/sizes.rt, and the table of docs/TESTING.md are made of it; the other files of `answers`
are held to it.

  calls_written.py --write  makes the two

tests/sources holds them (`faults`).
"""
import re
import sys

from calls import ROOT, table

SIZES = ROOT / "crates/answers/src/sizes.rt"
TESTING = ROOT / "docs/TESTING.md"


# ---- Rattle
RATTLE = """\
// How many bytes a call and its answer take, by the number of the function. A call has the word of that number before
// its arguments. Made of tests/calls.txt by tests/calls_written.py.
ghost use Rattle.std.specs.Prelude.{{◌<◌, ◌≤◌, IfSome}};

#[derive(Clone, Copy)]
pub(crate) struct Sizes {{
    pub call: usize,
    pub answer: usize,
}}

// None for a number that is no function's.
pub(crate) fn of(function: u32) -> Option<Sizes>
    ensures call {{ IfSome result (λ sizes. (0 < sizes.call) × (sizes.call ≤ {most_call})) }}
    ensures answer {{ IfSome result (λ sizes. sizes.answer ≤ {most_answer}) }}
{{
    let (call, answer) = match function {{
{arms}        _ => return None,
    }};
    Some(Sizes {{ call, answer }})
}}
"""


def rattle(functions):
    calls = [f.bytes_of_call() for f in functions]
    answers = [f.bytes_of_answer() for f in functions]
    arms = [f"        {f.number} => ({call}, {answer}),\n" for f, call, answer in zip(functions, calls, answers)]
    return RATTLE.format(most_call=max(calls), most_answer=max(answers), arms="".join(arms))


# how many words each field has that a method of `words.rt` reads or writes; `answered` is read there
READ = {"number": [1], "word": [1], "split": [1], "point": [3], "points": [12]}
WRITTEN = {"word": [1], "refusal": [1], "number": [1], "point": [3], "points": [12]}


def sizes_of(name, bodies, lent, words):
    """How many words each field has that a function of `answers` reads from the call, or writes to the answer, which it is
    lent: itself or by another that it hands it to."""
    found = []
    for method, other in re.findall(rf"\b{lent}\.(\w+)\(|\b(\w+)\(\s*{lent}[,)]", bodies[name]):
        if method in words:
            found += words[method]
        else:
            found += sizes_of(method or other, bodies, "self" if method else lent, words)
    return found


def rattle_faults(functions):
    """Each function of `answers` reads the fields of its call and writes those of its answer, in their order."""
    sources = {path.name: path.read_text() for path in SIZES.parent.glob("*.rt")}
    text = "\n".join(sources.values())
    bodies = dict(re.findall(r"^(?:pub\(crate\) )?fn (\w+)\([^{]*(\{.*?^\})", text, re.M | re.S))
    answered = re.search(r"^    pub\(crate\) fn answered\(.*?^    \}", sources["words.rt"], re.M | re.S)
    bodies["answered"] = answered[0] if answered else ""
    arms = dict(re.findall(r"^ *(\d+) => \w+::(\w+)\(call, out\),$", sources["calls.rt"], re.M))
    for f in functions:
        if arms.pop(str(f.number), None) != f.name:
            yield f"crates/answers/src/calls.rt: {f.number} is not {f.name}"
        elif f.name not in bodies:
            yield f"crates/answers/src: there is no function {f.name}"
        else:
            if sizes_of(f.name, bodies, "call", READ) != [field.words for field in f.call]:
                yield f"crates/answers/src: {f.name} does not read the fields of its call"
            if sizes_of(f.name, bodies, "out", WRITTEN) != [field.words for field in f.answer]:
                yield f"crates/answers/src: {f.name} does not write the fields of its answer"
    for number in arms:
        yield f"crates/answers/src/calls.rt: there is no function {number}"


# ---- docs/TESTING.md
HEAD = "| No. | Function | In C and Rust | Arguments | Answer |\n|---|---|---|---|---|\n"


def told(fields):
    return ", ".join(field.name + (f" ({field.words})" if field.words > 1 else "") for field in fields)


def markdown(functions):
    text = HEAD
    for f in functions:
        face = f" `{f.face}`" if f.face else ""
        text += f"| {f.number} | `{f.name}` |{face} | {told(f.call)} | {told(f.answer)} |\n"
    return text


def with_table(text, functions):
    """The document with the table as it has to be, or None where it has no table under that head."""
    before, head, after = text.partition(HEAD)
    return before + markdown(functions) + re.sub(r"\A(?:\|.*\n)*", "", after) if head else None


def faults():
    """What stands in the sources otherwise than the table has it."""
    functions = table()
    if SIZES.read_text() != rattle(functions):
        yield "crates/answers/src/sizes.rt: it is not what tests/calls.txt makes (tests/calls_written.py --write)"
    text = TESTING.read_text()
    if text != with_table(text, functions):
        yield "docs/TESTING.md: the table of the stream is not tests/calls.txt's (tests/calls_written.py --write)"
    yield from rattle_faults(functions)


def write():
    functions = table()
    SIZES.write_text(rattle(functions))
    text = with_table(TESTING.read_text(), functions)
    if text is None:
        sys.exit("docs/TESTING.md has no table of the stream")
    TESTING.write_text(text)


if __name__ == "__main__":
    if sys.argv[1:] != ["--write"]:
        sys.exit(__doc__)
    write()
