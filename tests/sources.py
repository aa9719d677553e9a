"""Holds the documents to the sources, and the sources to a few rules of the house. It reads text and runs nothing.

- Each public function has an `ensures` and no `requires`, is called by another crate or exported, and stands in a table
  of docs/STATEMENTS.md with its definition, which is there.
- Each public function has a must-fail edit: of its own lines, or of a function of its crate that it calls. The row of
  a function in STATEMENTS.md names edits of that kind, and each edit stands there, one of a program in TESTING.md.
- README.md lists each file of definitions with its number of lines, and their sums.
- Each definition of specs/ is reached from a public contract or from a theorem that STATEMENTS.md lists, or stands in
  Inner.antt and is reached from another contract; each law of proofs/ is cited, or stands in STATEMENTS.md, whose names
  are there; each function is called; each import is used.
- docs/CONTRIBUTING.md lists each file of laws, proofs/NAME.antt, once, and has each library crate in its drawing.
- What follows from the table of the stream of calls, tests/calls.txt, stands as that has it (tests/calls_written.py).
"""
import re
import sys
from collections import Counter
from pathlib import Path

import calls_written

ROOT = Path(__file__).resolve().parent.parent
CRATES = ROOT / "crates"
WORD = r"[\w'′·-]"
faults = []


def fault(where, what):
    faults.append(f"{where}: {what}")


def name_of(path):
    return str(path.relative_to(ROOT))


def without_comments(path):
    mark = "//" if path.suffix == ".rt" else "--"
    lines = path.read_text().split("\n")
    return "\n".join(re.sub(rf"(^|\s){mark}.*", "", line) for line in lines)


def occurs(name, text):
    """Whether an identifier, or each symbol of an operator such as ◌⊕◌, stands in the text."""
    if "◌" in name:
        return all(part in text for part in name.split("◌") if part)
    return re.search(rf"(?<!{WORD}){re.escape(name)}(?!{WORD})", text) is not None


def words(text):
    return Counter(re.findall(rf"{WORD}+", text))


SOURCES = {path: without_comments(path) for path in sorted(CRATES.glob("*/src/**/*.rt"))}
SPECS = {path: without_comments(path) for path in sorted(CRATES.glob("*/specs/**/*.antt"))}
PROOFS = {path: without_comments(path) for path in sorted(CRATES.glob("*/proofs/**/*.antt"))}
IS_LIBRARY = {path.parent.parent.name for path in SOURCES if path.name == "lib.rt"}
STATEMENTS = (ROOT / "docs/STATEMENTS.md").read_text()


def crate_of(path):
    return path.relative_to(CRATES).parts[0]


# ---- imports
USE = re.compile(
    r"^[ \t]*(?P<pub>pub )?(?:ghost )?use\s+(?P<path>[^;{\n]+?)(?:(?:\.|::)\{(?P<names>[^}]*)\})?"
    r"(?:\s+as\s+(?P<alias>\S+?))?;?[ \t]*$",
    re.M,
)


def imported(use):
    last = re.split(r"\.|::", use["path"].strip())[-1]
    names = use["names"].split(",") if use["names"] is not None else [use["alias"] or last]
    for name in names:
        # an item that stands below a module of the path, `N.d`, brings in `d`
        name = name.strip().split(" as ")[-1].strip().rsplit(".", 1)[-1]
        if name:
            yield last if name == "self" else name


def hold_imports():
    for path, text in [*SOURCES.items(), *SPECS.items(), *PROOFS.items()]:
        body = USE.sub("", text)
        for use in USE.finditer(text):
            for name in () if use["pub"] else imported(use):
                if not occurs(name, body):
                    fault(name_of(path), f"imports {name} and does not use it")


# ---- functions
FUNCTION = re.compile(r'^(?P<indent>[ \t]*)(?P<how>pub(?:\(crate\))? )?(?P<c>extern "C" )?fn (?P<name>\w+)', re.M)
IMPL = re.compile(r"^impl\b.*?(?P<type>\w+)(?:<[^{]*>)? {$", re.M)


def qualified(function, text):
    """A function's name, behind its type's where it is a method."""
    types = [block["type"] for block in IMPL.finditer(text, 0, function.start())] if function["indent"] else []
    return "::".join([*types[-1:], function["name"]])


def module_of(path):
    parts = path.relative_to(CRATES / crate_of(path) / "src").with_suffix("").parts
    return [crate_of(path), *(part for part in parts if part not in ("lib", "main"))]


def is_open(path):
    """Whether a file's module can be named from another crate."""
    module = module_of(path)
    root = SOURCES[CRATES / module[0] / "src/lib.rt"]
    return len(module) == 1 or re.search(rf"^pub mod {module[1]};", root, re.M) is not None


def public_functions():
    """The crate of each, by its path; an exported one goes by its name alone."""
    found = {}
    for path, text in SOURCES.items():
        for function in FUNCTION.finditer(text):
            name, head = function["name"], text[function.start():].split("{\n", 1)[0]
            if crate_of(path) not in IS_LIBRARY or function["how"] != "pub ":
                continue
            key = name if function["c"] else "::".join([*module_of(path), qualified(function, text)])
            if not is_open(path):
                fault(name_of(path), f"{name} is public in a module that is not")
            if "ensures" not in head:
                fault(name_of(path), f"{name} is public and has no statement")
            if "requires" in head:
                fault(name_of(path), f"{name} is public and has a requires")
            others = [t for p, t in SOURCES.items() if crate_of(p) != crate_of(path) and f"{crate_of(path)}::" in t]
            if not function["c"] and not any(occurs(name, text) for text in others):
                fault(name_of(path), f"{name} is public and no other crate calls it")
            found[key] = crate_of(path)
        # a conversion that other crates may use: its statement is a member of the impl
        elsewhere = any(crate_of(p) != crate_of(path) and f"{crate_of(path)}::" in t for p, t in SOURCES.items())
        if crate_of(path) in IS_LIBRARY and elsewhere:
            for made in re.findall(r"^impl From<.*> for (\w+) {\n +ghost from_gives = ", text, re.M):
                found["::".join([*module_of(path), made, "from"])] = crate_of(path)
    return found


def hold_calls():
    counts = words("\n".join(SOURCES.values()))
    for path, text in SOURCES.items():
        for function in FUNCTION.finditer(text):
            if not function["c"] and function["name"] != "main" and counts[function["name"]] < 2:
                fault(name_of(path), f"nothing calls {function['name']}")


# ---- definitions and laws
DEFINED = re.compile(
    rf"^(?P<indent> *)(?:abbrev |unfoldable )?pub (?P<record>record |data )?(?P<name>{WORD}+|◌\S+◌) *[:({{]", re.M
)


def definitions(text):
    """Each public name that a file of antt defines, with the text from there to the next one; a record with its fields."""
    body = USE.sub("", text)
    heads, fields_end = [], 0
    for head in DEFINED.finditer(body):
        if head.start() < fields_end:
            continue
        if head["record"]:
            after = re.compile(rf"^ {{0,{len(head['indent'])}}}\S", re.M).search(body, head.end())
            fields_end = after.start() if after else len(body)
        heads.append(head)
    ends = [head.start() for head in heads[1:]] + [len(body)]
    return [(head["name"], body[head.start():end]) for head, end in zip(heads, ends)]


def contract_of(function, text):
    """What a function's contract says, without the fields that it reads."""
    head = text[function.start():].split("{\n", 1)[0]
    said = re.search(r"\b(?:requires|ensures)\b.*", head, re.S)
    # without the names of the clauses
    said = re.sub(r"\b(?:requires|ensures)(?: \w+)? {", " ", said[0]) if said else ""
    # a module's name begins with a capital, a value's with a small letter
    return re.sub(r"(\b[a-z_]\w*|\))(?:\.\w+)+", r"\1", said)


def reached_from(contracts, waiting):
    """Those definitions of a list that a text names, or that such a one names, and so on."""
    reached, text = [], contracts
    while True:
        now = [entry for entry in waiting if occurs(entry[1], text)]
        if not now:
            return reached
        waiting = [entry for entry in waiting if entry not in now]
        reached += now
        text = "\n".join(body for _, _, body in now)


LAW = re.compile(rf"^ *(?:abbrev |unfoldable )?(?:pub )?(?P<name>{WORD}+) *(?:{{[^}}]*}} *)?: ", re.M)


def theorems():
    """What the laws that STATEMENTS.md lists say: each signature, to the line that proves it."""
    for text in PROOFS.values():
        for law in LAW.finditer(text):
            if f"`{law['name']}`" in STATEMENTS:
                proof = re.compile(rf"^ *{re.escape(law['name'])} ", re.M).search(text, law.end())
                yield text[law.start(): proof.start() if proof else len(text)]


def hold_definitions():
    """What a public contract or a listed theorem rests on stands in the files to be believed; what only inner functions say
    in Inner.antt."""
    public, all_contracts = [], []
    for path, text in SOURCES.items():
        for function in FUNCTION.finditer(text):
            all_contracts.append(contract_of(function, text))
            if crate_of(path) in IS_LIBRARY and function["how"] == "pub ":
                public.append(all_contracts[-1])
    there = [(path, name, body) for path, text in SPECS.items() for name, body in definitions(text)]
    by_public = reached_from("\n".join(public), there)
    by_theorem = reached_from("\n".join(theorems()), there)
    by_any = reached_from("\n".join(all_contracts), there)
    for path, name, body in there:
        if path.stem != "Inner" and (path, name, body) in by_theorem:
            continue
        if (path, name, body) not in by_any:
            fault(name_of(path), f"no contract and no listed theorem reaches {name}")
        elif path.stem == "Inner" and (path, name, body) in by_public:
            fault(name_of(path), f"a public contract reaches {name}")
        elif path.stem != "Inner" and (path, name, body) not in by_public:
            fault(name_of(path), f"only contracts of inner functions reach {name}: it belongs into Inner.antt")


def hold_laws():
    # the fields of an invariant are cited by what the check finds alone, too
    bodies = {path: USE.sub("", text) for path, text in PROOFS.items() if path.name != "Invariants.antt"}
    counts = sum((words(body) for body in bodies.values()), Counter())
    counts.update(name for text in PROOFS.values() for name in re.findall(rf"({WORD}+) as ", text))
    # an attribute of the code cites a law by its path, a set of laws those that it lists
    counts.update(name for text in SOURCES.values() for name in re.findall(r"::proofs::\w+::(\w+)", text))
    counts.update(name for text in PROOFS.values() for laws in re.findall(r"^ *pub ruleset .*", text, re.M)
                  for name in words(laws))
    for path, body in bodies.items():
        laws = list(LAW.finditer(body))
        for law, end in zip(laws, [law.start() for law in laws[1:]] + [len(body)]):
            name, text = law["name"], body[law.start():end]
            is_goal = name.endswith("_spec") or re.search(r": (?:goal|tie)\.", law[0] + body[law.end():law.end() + 9])
            if not is_goal and counts[name] <= words(text)[name] and f"`{name}`" not in STATEMENTS:
                fault(name_of(path), f"nothing cites {name}")
    there = counts + sum((words(text) for text in SPECS.values()), Counter())
    there.update(function["name"] for text in SOURCES.values() for function in FUNCTION.finditer(text))
    there.update(edit.stem for edit in CRATES.glob("*/must-fail/*.edit"))
    there.update(folder.name for folder in CRATES.iterdir())
    for name in re.findall(r"`([a-z]+(?:_[a-z]+)+)`", STATEMENTS):
        if not there[name]:
            fault("docs/STATEMENTS.md", f"there is no {name}")


# ---- must-fail edits
def bodies(crate):
    """The text of each function of a crate, by file and name, a method's behind its type's."""
    found = {}
    for path, text in SOURCES.items():
        if crate_of(path) == crate:
            heads = list(FUNCTION.finditer(text))
            ends = [text.find("\n" + head["indent"] + "}", head.start()) for head in heads]
            found.update({(path, qualified(h, text)): text[h.start():end] for h, end in zip(heads, ends)})
    return found


def edited(edit, functions):
    """The functions whose text an edit changes: those around its lines, or those that name the constant there. Of an edit
    of code and definitions together it is the code."""
    path, around = None, set()
    for field, text in re.findall(r"^(file|old): *(.*)$", edit.read_text(), re.M):
        if field == "file":
            path = CRATES / crate_of(edit) / text
        elif constant := re.match(r"const (\w+)", text):
            around |= {key for key, body in functions.items() if occurs(constant[1], body)}
        else:
            around |= {key for key, body in functions.items() if key[0] == path and text in body}
    if not around:
        fault(name_of(edit), "its line stands in no function")
    return around


def edits_of(crate):
    """For each function, the labels of the edits that change it or a function of the crate that it calls."""
    functions = bodies(crate)
    touched = {key: set() for key in functions}
    for edit in sorted(CRATES.glob(f"{crate}/must-fail/*.edit")):
        for key in edited(edit, functions):
            touched[key].add(edit.stem)
    names = {key: key[1].rsplit("::", 1)[-1] for key in functions}
    calls = {key: [other for other in functions if other != key and occurs(names[other], functions[key])] for key in functions}
    grown = True
    while grown:
        grown = False
        for key, others in calls.items():
            more = set().union(*(touched[other] for other in others)) - touched[key] if others else set()
            touched[key] |= more
            grown |= bool(more)
    return touched


# ---- docs/STATEMENTS.md
def rows():
    for line in STATEMENTS.split("\n"):
        cells = [cell.strip() for cell in line.strip("|").split("|")] if line.startswith("| `") else []
        if len(cells) == 4:
            yield cells


def hold_statements():
    public = public_functions()
    listed, named = set(), set()
    touched = {}
    for crate in IS_LIBRARY:
        for (path, name), labels in edits_of(crate).items():
            touched[name if name in public else "::".join([*module_of(path), name])] = labels
    defined = {(path.stem, name) for path, text in SPECS.items() for name, _ in definitions(text)}
    for record, fields in re.findall(r"struct (\w+) {(.*?)}", "\n".join(SOURCES.values()), re.S):
        defined.update((record, field) for field in re.findall(r"(\w+):", fields))
    for functions, _, definition, programs in rows():
        cited = re.findall(r"`(\w+)\.([^\s`]+)`", definition)
        for file, name in cited:
            if (file, name) not in defined:
                fault("docs/STATEMENTS.md", f"there is no definition {file}.{name}")
        if not cited:
            fault("docs/STATEMENTS.md", f"the row of {functions} names no definition")
        labels = set(re.findall(r"`(\w+)`", programs))
        shown = set()
        for function in re.findall(r"`([\w:]+)`", functions):
            listed.add(function)
            if function not in public:
                fault("docs/STATEMENTS.md", f"there is no public function {function}")
                continue
            if not labels & touched[function]:
                fault("docs/STATEMENTS.md", f"{function}: the row names no edit of it; it has {sorted(touched[function])}")
            shown |= touched[function]
            named.update((public[function], label) for label in labels & touched[function])
        for label in sorted(labels - shown):
            fault("docs/STATEMENTS.md", f"{label} is no edit of {functions}")
    for function in sorted(set(public) - listed):
        fault("docs/STATEMENTS.md", f"{function} is not listed")
    there = {(crate_of(edit), edit.stem) for edit in CRATES.glob("*/must-fail/*.edit")}
    for crate, label in sorted(there - named):
        if crate in IS_LIBRARY:
            fault("docs/STATEMENTS.md", f"no row of its functions names {crate}'s edit {label}")
    return len(public), len(there)


# ---- docs/TESTING.md
def hold_programs():
    """The page names the edits of programs, and each changes a function."""
    there = [edit for edit in CRATES.glob("*/must-fail/*.edit") if crate_of(edit) not in IS_LIBRARY]
    for edit in there:
        edited(edit, bodies(crate_of(edit)))
    text = (ROOT / "docs/TESTING.md").read_text()
    named = re.findall(r"`(\w+)`", " ".join(re.findall(r"wrong programs refused: ([^)]*)", text)))
    for label in sorted(set(named) ^ {edit.stem for edit in there}):
        fault("docs/TESTING.md", f"{label} is named and no program's edit, or the other way round")


# ---- README.md
def library_crates():
    """The crates that the archive is made of: what `urtemval` rests on stands above it in crates.txt."""
    lines = (ROOT / "crates.txt").read_text().split("\n")
    names = [line.split(":")[0].split()[0] for line in lines if re.match(r"\w[\w ]*:", line)]
    return names[: names.index("urtemval") + 1]


def hold_readme():
    text = (ROOT / "README.md").read_text()
    there = {path: len(path.read_text().splitlines()) for path in SPECS if path.name != "Lib.antt"}
    listed = {}
    for folder, files in re.findall(r"^\| `(crates/\w+/specs/)` \| (.*) \|$", text, re.M):
        for file, lines in re.findall(r"([\w/]+) \((\d+)\)", files):
            listed[ROOT / folder / f"{file}.antt"] = int(lines)
    for path in sorted(there.keys() | listed.keys()):
        if there.get(path) != listed.get(path):
            fault("README.md", f"{name_of(path)} has {there.get(path)} lines, and {listed.get(path)} are listed")
    library, programs, inner = 0, 0, 0
    for path, lines in there.items():
        if path.stem == "Inner":
            inner += lines
        elif crate_of(path) in library_crates():
            library += lines
        else:
            programs += lines
    for total, what in (library, "library"), (programs, "scenes and text"), (inner, "inner functions"):
        if f"{what}, {total:,} lines" not in text:
            fault("README.md", f"'{what}, {total:,} lines' is not said")
    return len(there), library + programs + inner


# ---- docs/CONTRIBUTING.md
def hold_map():
    page = "docs/CONTRIBUTING.md"
    text = (ROOT / page).read_text()
    listed = Counter(re.findall(r"^\| `(\w+/\w+)` \| \S.* \|$", text, re.M))
    top = [path for path in PROOFS if path.parent.name == "proofs" and path.name != "Lib.antt"]
    there = {f"{crate_of(path)}/{path.stem}" for path in top}
    for name in sorted(there - listed.keys()):
        fault(page, f"the list of laws has no {name}")
    for name in sorted(listed.keys() - there):
        fault(page, f"the list of laws has {name}, which is no file of laws")
    for name in sorted(name for name, times in listed.items() if times > 1):
        fault(page, f"the list of laws has {name} more than once")
    drawing = text.split("```")[1]
    for crate in sorted(IS_LIBRARY):
        if not occurs(crate, drawing):
            fault(page, f"{crate} is not in the drawing of the crates")


hold_imports()
hold_calls()
hold_definitions()
hold_laws()
functions, edits = hold_statements()
hold_programs()
files, lines = hold_readme()
hold_map()
faults += calls_written.faults()
for each in faults:
    print(f"tests/sources: {each}")
print(
    f"tests/sources: {functions} public functions, {edits} must-fail edits, {files} files of definitions with {lines} lines;"
    f" {len(faults)} faults"
)
sys.exit(1 if faults else 0)
