"""Edits, the functions that they change, and the groups in which they are tried together."""
import os
import re
from dataclasses import dataclass, field

FUNCTION = re.compile(r"(?:^ *#\[.*\n)*^( *)(?:pub(?:\([a-z]+\))? )?(?:const |unsafe )*fn (\w+)", re.M)
CYCLE = re.compile(r"#\[cycle\((\w+)\)\]")
# What methods stand in: a trait, what is implemented, and the type or trait itself.
HOLDER = re.compile(r"^(?:impl(?:<.*?>)?|(?:pub )?trait) (?:(\w+)(?:<(.*)>)? for )?(\w+)", re.M)
# A lifetime, or what stands in `<>` within an argument.
INNER = re.compile(r"<[^<>]*>|'\w+")


@dataclass
class Function:
    """A function of a file of `src`: its name, that of its proof, the lines from its attributes to its closing brace, and its path as a
    check names it.

    Functions that call one another have one proof, by the name of their cycle."""

    file: str
    name: str
    proof: str
    first: int
    last: int
    path: str


@dataclass
class Edit:
    """A wrong body: its file, each old text with the new one, the lines where these stand, and the functions that it changes."""

    path: str
    file: str = ""
    pairs: list = field(default_factory=list)
    places: list = field(default_factory=list)
    functions: list = field(default_factory=list)
    fault: str = ""

    @property
    def name(self):
        return os.path.basename(self.path)[: -len(".edit")]


def read(*path):
    with open(os.path.join(*path), encoding="utf-8") as file:
        return file.read()


def functions_of(file, text):
    """The functions that stand in the text of a file, in order."""
    found = []
    for head in FUNCTION.finditer(text):
        end = re.compile("^%s}" % head[1], re.M).search(text, head.end())
        last = text.count("\n", 0, end.end() if end else len(text)) + 1
        cycle = CYCLE.search(head[0])
        path = "::".join([*modules_of(file), *(holder_of(text[: head.start()]) if head[1] else []), head[2]])
        found.append(Function(file, head[2], cycle[1] if cycle else head[2], text.count("\n", 0, head.start()) + 1, last, path))
    return found


def modules_of(file):
    """The modules that lead to what stands in a file: of src/a/b.rt they are a and b, of the root file none."""
    inner = file[len("src/"): -len(".rt")]
    return [] if inner in ("lib", "main") else inner.split("/")


def holder_of(before):
    """How a check names what methods behind this text stand in, in a list: as `Users`, or `UsersIterator` where they are of a trait.

    Its arguments are a part of the name, but for type parameters, which have one letter."""
    found = list(HOLDER.finditer(before))[-1:]
    return ["".join([it[3], it[1] or "", *re.findall(r"\w\w+", INNER.sub("", it[2] or ""))]) for it in found]


def edit_of(path, crate):
    """The edit in a file, of the crate in this folder."""
    edit = Edit(path)
    old = None
    for line in read(path).split("\n"):
        if line.startswith("file: "):
            edit.file = line[len("file: "):].strip()
        elif line.startswith("old: "):
            old = line[len("old: "):]
        elif line.startswith("new:") and old is not None:
            new = line[len("new:"):]
            edit.pairs.append((old, new[1:] if new.startswith(" ") else new))
    if not os.path.isfile(os.path.join(crate, edit.file)):
        edit.fault = "there is no file %r" % edit.file
    elif not edit.pairs:
        edit.fault = "it has no old and new text"
    else:
        place(edit, read(crate, edit.file))
    return edit


def place(edit, text):
    """Finds where the edit's old texts stand, and in which functions."""
    functions = functions_of(edit.file, text)
    for old, new in edit.pairs:
        if text.count(old) != 1:
            edit.fault = "an old text stands %d times in %s" % (text.count(old), edit.file)
            return
        line = text.count("\n", 0, text.index(old)) + 1
        edit.places.append(line)
        inner = [it for it in functions if it.first <= line <= it.last]
        if inner and inner[-1] not in edit.functions:
            edit.functions.append(inner[-1])
        text = text.replace(old, new)


def apply(edits, crate):
    """Makes these edits in the files of the crate in this folder, each on its own lines alone: one may make what another has as old text."""
    for edit in edits:
        lines = read(crate, edit.file).split("\n")
        for (old, new), line in zip(edit.pairs, edit.places):
            lines[line - 1] = lines[line - 1].replace(old, new)
        with open(os.path.join(crate, edit.file), "w", encoding="utf-8") as file:
            file.write("\n".join(lines))


def is_local(edit):
    """Whether the edit changes bodies of functions alone, so that what is said of these functions is said of it."""
    return bool(edit.functions) and edit.file.startswith("src/") and os.path.basename(edit.file) != "laws.rt"


def groups_of(edits):
    """The edits in groups, each for one check: no function is changed by two of a group, and what is not local stands alone."""
    groups = []
    for edit in edits:
        changed = changed_by(edit)
        fits = [it for it in groups if is_local(edit) and is_local(it[0]) and not any(changed & changed_by(other) for other in it)]
        if fits:
            fits[0].append(edit)
        else:
            groups.append([edit])
    return groups


def changed_by(edit):
    """What is proved of the functions that the edit changes, each by itself or by its cycle."""
    return {(it.file, it.first if it.proof == it.name else it.proof) for it in edit.functions}
