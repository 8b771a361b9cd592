"""Wrong programs that span crates: a law of one crate must refuse what each of the others, by itself, would take.

An edit of crates/NAME/across changes files of several crates that NAME uses ('file: CRATE/path'; every place where an old text stands), so that their
definitions agree with each other and are wrong together. It passes where the checker refuses the laws of NAME that its first line names, each by itself, and
takes every definition; how many laws of the other crates see the edit too is told. The other crates go in as source, without their functions: a function is
held to its definition in its own crate, and here it is the definitions that are wrong.
"""

import re
import shutil

import checker
from crates import HEAD, TOP, functions, read_edit

BY_ITSELF = re.compile(r"^(\S+?):\d+:\d+: error: `([^`]+)`(?!.*was not admitted)", re.M)
ATTRIBUTES = re.compile(r"(?:^[ \t]*#\[[^\]\n]*\]\n)+\Z", re.M)  # the lines in front of a function that are its own, such as a hint on inlining
IMPORTED = re.compile(r"^((?:pub )?use [\w:]+::)(?:\{([^{}]*)\}|([a-z]\w*));\n", re.M)


def across(name):
    return [read_edit(path) for path in sorted((TOP / "crates" / name / "across").glob("*.edit"))]


def without_functions(name, crates):
    """A copy of a crate with its types, definitions and laws, and no function."""
    folder = crates / name
    checker.copied(name, folder)
    for file in {f.file for f in functions(name)}:
        text = (folder / file).read_text()
        plain = re.sub(r"//[^\n]*", lambda m: " " * len(m.group()), text)
        ends = [f.end + 1 for f in functions(name) if f.file == file]
        for head in reversed(list(HEAD.finditer(plain))):
            text = ATTRIBUTES.sub("", text[:head.start()]) + text[min(e for e in ends if e > head.end()):]
        (folder / file).write_text(IMPORTED.sub(types_alone, text))
    for proof in (folder / "proofs").rglob("*.antt"):
        if proof.stem in ("Answers", "Invariants", "Proof"):
            proof.unlink()


def types_alone(found):
    """An import without the functions that it brings."""
    kept = [name for name in re.split(r"[\s,]+", found[2] or "") if name[:1].isupper()]
    return f"{found[1]}{{{', '.join(kept)}}};\n" if kept else ""


def above(edited, name):
    """The crates under NAME that are edited, or use such a one: those that go in as source."""
    found = set(edited)
    while more := {c for c in checker.under(name) if c not in found and found & set(checker.USES.get(c, []))}:
        found |= more
    return [c for c in checker.USES if c in found]


def check(name, tree, source, log):
    """The checker on a crate in a tree of crates, of which some go in as source, over what earlier checks beside the tree kept; what it said is written too."""
    words = ["--crate-name", name, f"{name}/src/lib.rt", *checker.extern("std")]
    for other in sorted(checker.under(name)):
        as_source = ["--lib", f"{other}:std,{','.join(checker.USES.get(other, []))}={other}/src/lib.rt"]
        words += as_source if other in source else checker.extern(other)
    words += checker.folders(checker.under(name) - set(source)) + checker.of_logic()
    status, said = checker.said([*words, "--incremental", tree.parent / "modules"], tree)
    log.write_text(said)
    return status, said


def tried(name, room, logs):
    """(edit, why it fails or None, how it was tried) for each edit of crates/NAME/across."""
    some = across(name)
    if not some:
        return []
    source = above({file.split("/")[0] for edit in some for file, _, _ in edit.pairs}, name)
    plain = room / "plain"
    for crate in source:
        without_functions(crate, plain)
    checker.copied(name, plain / name)
    status, said = check(name, plain, source, logs / "across-as-it-is.log")
    if status != 0:
        return [(edit, "the crates as they are are not proved without their functions: " + first_error(said), "not tried") for edit in some]
    return [(edit, *judged(edit, plain, room / edit.label, source, logs)) for edit in some]


def judged(edit, plain, tree, source, logs):
    """Why an edit fails, or None; and what else is to be told."""
    shutil.copytree(plain, tree)
    for file, old, new in edit.pairs:
        path = tree / file
        if not path.is_file() or old not in path.read_text():
            return f"BAD EDIT: '{old[:60]}' does not stand in {file}", "not tried"
        path.write_text(path.read_text().replace(old, new))
    status, said = check(edit.crate, tree, source, logs / f"across-{edit.label}.log")
    refused = [(file.removeprefix("./").split("/"), law) for file, law in BY_ITSELF.findall(said)]
    here = {law for file, law in refused if file[0] == edit.crate}
    others = [(file, law) for file, law in refused if file[0] != edit.crate]
    definitions = [f"{law} in {'/'.join(file)}" for file, law in others if file[1] == "specs"]
    told = f"across crates; {len(others)} laws of other crates refuse it too" if others else "across crates; no other crate refuses it"
    if status != 1 or "\nlogic=not-proved" not in said:
        return "NOT REFUSED: it is proved, or did not reach the prover: " + first_error(said), told
    if definitions:
        return "definitions are refused: " + ", ".join(definitions), told
    if missed := set(edit.names) - here:
        return f"not refused by itself: {', '.join(sorted(missed))}: {first_error(said)}", told
    return None, told


def first_error(said):
    return next((line for line in said.splitlines() if ": error" in line), said[:200].replace("\n", " "))
