#!/usr/bin/env python3
"""declared.py rattle|c|rust|layout|texts|words: the exported functions and their records, one a line, in words that are
the same for the three languages. `rattle` reads the sources of the archive, `c` the header, `rust` the crate's
declarations; tests/link holds the three lists to each other. `layout` prints the sizes and offsets that follow from the
Rattle records, the numbers of the kinds and the full allowance, as tests/face/layout.c and the Rust crate's test
`layout` print them. `texts` prints README.md's table of refusals as these two print theirs, without those of scenes, which no exported
function answers. `words` prints the words of each function's parameters and answer, as `tests/calls.py face` prints
those of the stream.
"""
import pathlib
import re
import sys

ROOT = pathlib.Path(__file__).resolve().parents[2]

# The Rattle records, in the order of the list: the file, the name there, the name in C and Rust.
RECORDS = [
    ("crates/admission/src/lib.rt", "Limits", "Limits"),
    ("crates/urtemval/src/answer.rt", "SafeTime", "SafeTime"),
    ("crates/urtemval/src/answer.rt", "Measured", "Distance"),
    ("crates/urtemval/src/answer.rt", "Roots", "Roots"),
    ("crates/urtemval/src/answer.rt", "Value", "Value"),
]
NAMES = {rattle: name for _, rattle, name in RECORDS}
SIZES = {"u32": 4, "f32": 4, "[f32; 3]": 12}


def text(path):
    """A source without its comments, spaces run together."""
    source = (ROOT / path).read_text(encoding="utf-8")
    source = re.sub(r"/\*.*?\*/|//[^\n]*", " ", source, flags=re.S)
    return re.sub(r"\s+", " ", source)


def found(pattern, source, what):
    match = re.search(pattern, source)
    if match is None:
        sys.exit(f"declared.py: {what} is not found")
    return match


def function_line(name, parameters, answer):
    """A function by its name, its parameters, each a name and the word of its type, and the word of its answer."""
    return f"fn {name}(" + ", ".join(f"{parameter} {kind}" for parameter, kind in parameters) + f") -> {answer}"


def record_line(name, fields):
    return f"record {name}: " + ", ".join(f"{field} {kind}" for field, kind in fields)


# Rattle and Rust write functions, records and types in one way.
def rust_word(declared):
    declared = declared.replace("[[f32; 3]; 4]", "Points")
    return NAMES.get(declared, declared)


def rust_functions(source, pattern):
    lines = []
    for name, parameters, answer in re.findall(pattern, source):
        parts = [p.strip().split(": ") for p in parameters.split(",") if p.strip()]
        lines.append(function_line(name, [(p, rust_word(kind)) for p, kind in parts], rust_word(answer)))
    return sorted(lines)


def rust_fields(source, name):
    body = found(rf"#\[repr\(C\)\](?: #\[derive\([\w, ]+\)\])? pub struct {name} {{(.*?)}}", source, f"the record {name}").group(1)
    return re.findall(r"pub (\w+): (\[f32; 3\]|\w+)", body)


def rattle_records():
    return [(name, rust_fields(text(path), rattle)) for path, rattle, name in RECORDS]


def rattle_functions():
    sources = "".join(text(p.relative_to(ROOT)) for p in sorted((ROOT / "crates/urtemval/src").glob("*.rt")))
    pattern = r'#\[unsafe\(no_mangle\)\] pub extern "C" fn (\w+)\((.*?)\) -> (\w+)'
    return rust_functions(sources, pattern)


def rattle():
    return rattle_functions() + [record_line(n, f) for n, f in rattle_records()]


def rust():
    raw = text("rust/urtemval/src/raw.rs")
    lib = text("rust/urtemval/src/lib.rs")
    found(r"pub type Points = \[\[f32; 3\]; 4\];", lib, "the type Points")
    block = found(r'extern "C" { (.*?) }$', raw.rstrip(), "the block of functions").group(1)
    lines = rust_functions(block, r"pub fn (\w+)\((.*?)\) -> (\w+);")
    for _, _, name in RECORDS:
        source = lib if name == "Limits" else raw
        lines.append(record_line(name, rust_fields(source, name)))
    return lines


def c_word(declared):
    word = declared.replace("Urtemval", "")
    words = {"float": "f32", "size_t": "usize", "uint32_t": "u32"}
    words.update({"const Points *": "&Points", "Points *": "&mut Points"})
    return words.get(word, word)


def c():
    header = text("include/urtemval.h")
    found(r"typedef struct UrtemvalPoints { float at\[4\]\[3\]; } UrtemvalPoints;", header, "the record Points")
    lines = []
    for answer, name, parameters in re.findall(r"(Urtemval\w+) (urtemval_\w+)\((.*?)\) URTEMVAL_NOEXCEPT;", header):
        parts = [re.fullmatch(r"(.*?) ?(\w+)", p.strip()).groups() for p in parameters.split(",")]
        lines.append(function_line(name, [(p, c_word(kind)) for kind, p in parts], c_word(answer)))
    lines.sort()
    for _, _, name in RECORDS:
        body = found(rf"typedef struct Urtemval{name} {{(.*?)}} Urtemval{name};", header, f"the record {name}").group(1)
        fields = []
        for kind, field, places in re.findall(r"(\w+) (\w+)(\[3\])?;", body):
            word = c_word(kind)
            fields.append((field, f"[{word}; 3]" if places else word))
        lines.append(record_line(name, fields))
    return lines


def layout():
    """Every field is aligned to four bytes, so they lie one after the other."""
    lines = ["record Points size 48"]
    for name, fields in rattle_records():
        lines.append(f"record {name} size {sum(SIZES[kind] for _, kind in fields)}")
        at = 0
        for field, kind in fields:
            lines.append(f"field {name}.{field} at {at} size {SIZES[kind]}")
            at += SIZES[kind]
    kinds = found(r"enum Kind {(.*?)}", text("crates/ccd3/src/lib.rt"), "the kinds").group(1)
    for name, number in re.findall(r"(\w+) = (\d)", kinds):
        lines.append(f"kind {name.upper()} {number}")
    full = found(r"pub const FULL_ALLOWANCE: u32 = (\d+);", text("crates/admission/src/lib.rt"), "the full allowance")
    lines.append(f"allowance FULL_ALLOWANCE {full.group(1)}")
    return lines


def texts():
    rows = re.findall(r"^\| (\d+) \| (.*) \|$", (ROOT / "README.md").read_text(encoding="utf-8"), re.M)
    return [f"text {number}: {words}" for number, words in rows if not words.startswith("scene: ")]


def words():
    """Each function by its parameters, a record's fields one by one, each with its words, and the words of its answer:
    of its record's fields, and then of what it was lent to write.
    """
    records = {name: [(field, SIZES[kind] // 4) for field, kind in fields] for name, fields in rattle_records()}
    lines = []
    for line in rattle_functions():
        name, parameters, answer = re.fullmatch(r"fn (\w+)\((.*)\) -> (\w+)", line).groups()
        taken, given = [], [size for _, size in records[answer]]
        for field, kind in (parameter.split(" ", 1) for parameter in parameters.split(", ")):
            size = 12 if kind.endswith("Points") else 1
            taken += records.get(kind, [(field, size)])
            given += [size] if kind.startswith("&mut") else []
        taken = ", ".join(f"{field} {size}" for field, size in taken)
        lines.append(f"{name}({taken}) -> {' '.join(map(str, given))}")
    return lines


if __name__ == "__main__":
    lists = {"rattle": rattle, "c": c, "rust": rust, "layout": layout, "texts": texts, "words": words}
    if len(sys.argv) != 2 or sys.argv[1] not in lists:
        sys.exit(__doc__)
    print("\n".join(lists[sys.argv[1]]()))
