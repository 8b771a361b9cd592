"""What the tools read off the tree: the crates and what each uses, the functions of a crate, its wrong programs."""

import re
from dataclasses import dataclass
from pathlib import Path

TOP = Path(__file__).resolve().parent.parent
# a clause may have a label, or a star: `requires small {`, `ensures* {`, `ghost n: {`
CLAUSE = re.compile(r"\s*(requires|ensures|ghost)\b\*?\s*\w*\s*:?\s*\{")
GIVEN = r"\s*(?:::<[^<>()]*>)?\s*\("  # behind a name that is called, with or without types: `is_message::<Layer>(`
HEAD = re.compile(r'^[ \t]*(?P<pub>pub\s+)?(?:pub\([^)]*\)\s+)?(?:unsafe\s+)?(?:extern\s+"C"\s+)?fn\s+(?P<name>\w+)(?P<types><(?:[^<>]|->|<[^<>]*>)*>)?', re.M)
ARROW = re.compile(r"\s*->\s*[^{]*?(?=\s*(?:requires|ensures|ghost)\b|\s*\{)", re.S)
FOLDERS = ["must-fail", "more-edits"]  # both tried by tools/try-edits, and must-fail by rt ci too


@dataclass
class Function:
    name: str  # as the checker says it, without the crate: command::CommandInt::encode
    public: bool
    file: str  # src/command.rt
    start: int  # where the body begins and ends in the file
    end: int
    body: str


@dataclass
class Edit:
    crate: str
    label: str
    folder: str
    names: list  # functions, or laws and definitions
    why: str
    pairs: list  # (file, old, new)
    still: list  # laws that it leaves true


def uses():
    """For each listed crate the crates that its line names, in the order of crates.txt."""
    found = {}
    for line in (TOP / "crates.txt").read_text().splitlines():
        name, colon, rest = line.split("#")[0].partition(":")
        if colon:
            found[name.split()[0]] = rest.split()
    return found


def static_libraries():
    """The crates that crates.txt lists as static libraries."""
    return re.findall(r"^(\w+) +staticlib\b", (TOP / "crates.txt").read_text(), re.M)


def closing(text, at, pair):
    depth = 0
    for i in range(at, len(text)):
        depth += (text[i] == pair[0]) - (text[i] == pair[1])
        if depth == 0:
            return i
    return len(text) - 1


def functions(crate, top=TOP):
    """Every function of a crate, read off its text."""
    source = top / "crates" / crate / "src"
    for path in sorted(source.rglob("*.rt")):
        inside = "::".join(path.relative_to(source).with_suffix("").parts)
        inside = "" if inside in ("lib", "main") else inside + "::"
        # comments blanked out, so that a brace in one does not count and every place stays
        text = re.sub(r"//[^\n]*", lambda m: " " * len(m.group()), path.read_text())
        # an impl of a trait is named after the type and the trait, as the checker has it
        holders = [(m.end() - 1, closing(text, m.end() - 1, "{}"), (m[2] or "") + m[1])
                   for m in re.finditer(r"^\s*impl(?:<[^{]*?>)?\s+(\w+)(?:<[^{]*?>)?(?:\s+for\s+(\w+))?[^{]*\{", text, re.M)]
        for m in HEAD.finditer(text):
            at = closing(text, text.index("(", m.end()), "()") + 1
            arrow = ARROW.match(text, at)
            at = arrow.end() if arrow else at
            while clause := CLAUSE.match(text, at):
                at = closing(text, clause.end() - 1, "{}") + 1
            start = text.index("{", at)
            end = closing(text, start, "{}")
            holder = next((h + "::" for a, b, h in holders if a < m.start() < b), "")
            yield Function(inside + holder + m["name"], bool(m["pub"]), "src/" + str(path.relative_to(source)), start, end, text[start:end])


def callers(crate_functions, names):
    """The functions among these that call one of the named ones, at first hand or through others."""
    found = set(names)
    grown = True
    while grown:
        called = re.compile(r"\b(?:" + "|".join({n.rsplit("::")[-1] for n in found}) + r")" + GIVEN)
        more = {f.name for f in crate_functions if f.name not in found and called.search(f.body)}
        grown = bool(more)
        found |= more
    return found - set(names)


def callees(crate_functions, function, private_only=False):
    """The functions of the crate that a function calls, at first hand or through others."""
    found, bodies = set(), [function.body]
    while bodies:
        names = set(re.findall(r"\b(\w+)" + GIVEN, bodies.pop()))
        for f in crate_functions:
            if f.name not in found and f.name.rsplit("::")[-1] in names and not (private_only and f.public):
                found.add(f.name)
                bodies.append(f.body)
    return found


def read_edit(path):
    """An edit's first line is `# NAME[, NAME]: what the wrong program does`; then `file:`, `old:` and `new:` lines as rt reads them.
    `# still: LAW[, LAW]` names laws that hold of the wrong program too."""
    lines = path.read_text().split("\n")
    head = re.fullmatch(r"# ([\w:·'-]+(?:, [\w:·'-]+)*): (.+)", lines[0])
    names, why = (head[1].split(", "), head[2]) if head else ([], lines[0])
    pairs, still, file, old = [], [], None, None
    for line in lines:
        if line.startswith("file: "):
            file = line[6:]
        elif line.startswith("old: "):
            old = line[5:]
        elif line.startswith("new:"):
            pairs.append((file, old, line[4:].removeprefix(" ")))
        elif line.startswith("# still: "):
            still = line[9:].split(", ")
    return Edit(path.parent.parent.name, path.stem, path.parent.name, names, why, pairs, still)


def edits(crate):
    return [read_edit(path) for folder in FOLDERS for path in sorted((TOP / "crates" / crate / folder).glob("*.edit"))]
