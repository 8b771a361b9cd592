"""The checker on a crate, as `rt` calls it: with the libraries that rt has made (crates/NAME/out/rlib and the kit's rlibs), over what a check kept."""

import os
import shutil
import subprocess
from pathlib import Path

from crates import TOP, static_libraries, uses

RT = shutil.which("rt")
KIT = Path(RT).resolve().parent.parent if RT else None
USES = uses()
PARTS = ("src", "specs", "proofs")


def is_ours(crate):
    return (TOP / "crates" / crate).is_dir()


def out(crate):
    return TOP / "crates" / crate / "out"


def root(folder):
    return next(f"src/{f}" for f in ("main.rt", "lib.rt") if (folder / "src" / f).exists())


def under(crate):
    """The crates that a crate uses, at first hand or through others."""
    found, new = set(), list(USES.get(crate, []))
    while new:
        other = new.pop()
        if other not in found:
            found.add(other)
            new += USES.get(other, [])
    return found


def extern(name):
    return ["--extern", f"{name}={out(name) / 'rlib' if is_ours(name) else KIT / 'rlibs'}/{name}.rlib"]


def of_logic():
    return ["--antt-project", KIT / "rattle/logic/antt-project.json", "--logic-built", KIT / "logic_built", "--jobs", "1"]


def folders(crates):
    """Where the libraries of these libraries are found."""
    words = ["-L", f"dependency={KIT}/rlibs"]
    for other in sorted(crates):
        words += ["-L", f"dependency={out(other)}/rlib"] if is_ours(other) else []
    return words


def check(crate, folder, *more):
    """The checker on a copy of a crate: its status and what it said."""
    words = ["--crate-name", crate, root(folder)] + extern("std")
    for other in USES[crate]:
        words += extern(other)
    words += folders(under(crate)) + of_logic()
    return said([*words, *as_static(crate), *more], folder)


def as_static(crate):
    return ["--crate-type", "staticlib"] if crate in static_libraries() else []


def said(words, folder):
    done = subprocess.run([KIT / "bin/rattle", "check", *words], cwd=folder, stdin=subprocess.DEVNULL, stdout=subprocess.PIPE, stderr=subprocess.STDOUT, text=True,
                          errors="replace")
    return done.returncode, done.stdout


def copied(crate, folder):
    """A copy of what the checker reads of a crate."""
    for part in PARTS:
        if (TOP / "crates" / crate / part).is_dir():
            shutil.copytree(TOP / "crates" / crate / part, folder / part)


def linked(kept, to):
    """A copy of kept work, by links where these can be made: the checker replaces such a file and changes none."""
    def copy(one, other):
        try:
            if one.endswith(".oantt"):
                return os.link(one, other)
        except OSError:
            pass
        return shutil.copy2(one, other)

    shutil.copytree(kept, to, symlinks=True, copy_function=copy)


def made(crate):
    """Has rt prove a crate in its folder, which makes what the crates above it need and keeps what it proved in out/: the status, and what rt said."""
    verb = "lib" if is_library(crate) else "check"
    done = subprocess.run([RT, verb, "--jobs", "1"], cwd=TOP / "crates" / crate, stdin=subprocess.DEVNULL, stdout=subprocess.PIPE, stderr=subprocess.STDOUT, text=True,
                          errors="replace")
    return done.returncode, done.stdout


def is_library(crate):
    return not (TOP / "crates" / crate / "src/main.rt").exists() and crate not in static_libraries()


def has_stamp(crate):
    """Whether the library in a crate's out/ is of `rt lib` or `rt check`, and not of `rt ci`."""
    return (out(crate) / "rlib/stamp").exists()


def left_by_ci(crate):
    """Whether `rt ci` has left what the crates above a library need, as `made` tells it."""
    if not is_library(crate) or (out(crate) / f"rlib/{crate}.rlib/format").exists():
        return 0, ""
    return 1, "rt ci has left no library of this crate, so it did not prove it"
