"""The libraries that `rt ci` left in crates/*/out, and checks over them.

A run of `rt check` builds those anew, by a second proof of each: they hold what crates above have to know, and no proofs.
"""
import os
import shutil
import subprocess


def lacking(top, names):
    """Why there are no libraries that `rt ci` built of the sources that stand here, to check these crates over; nothing where there are."""
    asks = '. dist/provenance && unproved_because crates/new_enemy/out "$(sources_sum .)"'
    said = subprocess.run(["bash", "-c", asks], cwd=top, stdout=subprocess.PIPE, text=True)
    if said.returncode or said.stdout:
        return said.stdout.strip() or "there is no dist/provenance"
    if not os.path.isfile(compiler()):
        return "there is no %s" % compiler()
    used = uses(top)
    own = [it for name in names for it in below(used, name) if not is_of_gate(library(top, it))]
    return "the library of %s is not of `rt ci`" % own[0] if own else ""


def is_of_gate(path):
    """Whether a library stands there without the stamp that other commands than `rt ci` set beside it."""
    return os.path.exists(os.path.join(path, "format")) and not os.path.exists(os.path.join(os.path.dirname(path), "stamp"))


def library(top, name):
    return os.path.join(top, "crates", name, "out", "rlib", name + ".rlib")


def uses(top):
    """What each crate of crates.txt uses, by its name."""
    with open(os.path.join(top, "crates.txt"), encoding="utf-8") as file:
        sides = [line.partition("#")[0].partition(":") for line in file]
    return {own.split()[0]: used.split() for own, colon, used in sides if colon}


def below(used, name):
    """The crates of the repository that a crate stands on."""
    found = []
    for it in used[name]:
        if it in used:
            found += [other for other in [*below(used, it), it] if other not in found]
    return found


def compiler():
    """The kit's compiler, which stands beside the command that everybody calls."""
    return os.path.join(os.path.dirname(os.path.realpath(shutil.which("rt") or "rt")), "rattle")


def command(top, name):
    """The words that check a crate over these libraries, as `rt` gives them to the compiler."""
    kit = os.path.dirname(os.path.dirname(compiler()))
    used, of_kit = uses(top), os.path.join(kit, "rlibs")
    root = "src/main.rt" if os.path.exists(os.path.join(top, "crates", name, "src", "main.rt")) else "src/lib.rt"
    words = [compiler(), "check", "--crate-name", name, root, "-L", "dependency=" + of_kit]
    for it in ["std", *used[name]]:
        words += ["--extern", "%s=%s" % (it, library(top, it) if it in used else os.path.join(of_kit, it + ".rlib"))]
    for it in below(used, name):
        words += ["-L", "dependency=" + os.path.dirname(library(top, it))]
    logic = ["--antt-project", os.path.join(kit, "rattle", "logic", "antt-project.json"), "--logic-built", os.path.join(kit, "logic_built")]
    return [*words, *logic, "--links", name + "="]
