"""What a check with several edits says of each."""
import re

from edits.edit_texts import modules_of

REFUSED, PROVED, UNREAD, UNTOLD = "refused", "NOT REFUSED", "BAD EDIT", "not told"
# A file of proofs names what the edit took away, and nothing else refuses it.
NAMED = "REFUSED FOR A NAME"

# A place of src, and what is said of it.
PLACE = re.compile(r"(?:note: )?(?:\./)?(src/\S+?):(\d+):\d+: (.*)")
# A function's own file of proofs, and what is wrong there.
PROOF = re.compile(r"(?:\./)?proofs/(?:(\S+)/)?\+?(\w+)/\w+\.antt:\d+:\d+: error: (.*)")
# Any file of proofs.
LEMMA = re.compile(r"(?:\./)?proofs/\S+\.antt:\d+:\d+: error: (.*)")
# A function with no file of proofs, some of whose own goals are left. What it only calls stands in other words.
LEFT = re.compile(r"fn \S+: no proof: expected answers in (?:\./)?proofs/(?:(\S+)/)?\+?(\w+)/\w+\.antt; `search` did not prove (.*)")
# Where a file of proofs names what is gone, the refusal shows nothing of a contract, nor of what rests on it. It may say so in the line
# behind.
NAMES = re.compile(r"has no field|is not in scope|has no `|was not admitted|is no name|\(nearest: |not checked: ")
BROKEN = re.compile(r"\n +(?=has no field)")
CODE = re.compile(r"error\[[\w-]+\]")
# The last line of a check, and the one where all that it was asked for is proved.
ENDS = re.compile(r"^(?:logic=|only=|rattle: no verdict)", re.M)
PROVES = re.compile(r"^(?:logic=proved|only=(\d+) proved=\1$)", re.M)

# A function that a check was asked for by a name that is none of a single function.
UNKNOWN = re.compile(r"^rattle: error: (?:several functions are named|`\w+` has no function) `", re.M)


def is_unknown(text):
    return bool(UNKNOWN.search(text))


def stands_at(function, line):
    """Whether the line refuses a goal of this function."""
    place = PLACE.match(line)
    if place:
        return place[1] == function.file and function.first <= int(place[2]) <= function.last and "it is not proved" in place[3]
    proof = LEFT.match(line) or PROOF.match(line)
    if not proof or proof.re is PROOF and NAMES.search(proof[3]):
        return False
    # a cycle's proof stands with its module, and that of a function with what it is a method of
    within = function.path.split("::")[:-1] if function.proof == function.name else modules_of(function.file)
    return proof[2] == function.proof and (proof[1] or "") == "/".join(within)


def is_refusal(line):
    """Whether the line refuses a goal of some function, or a lemma."""
    place, proof = PLACE.match(line), LEMMA.match(line)
    return bool(place and "it is not proved" in place[3] or LEFT.match(line) or proof and not NAMES.search(proof[1]))


def refusal_of(edit, lines, is_alone):
    """A line that refuses a goal of a function that the edit changes, or of any where it is alone; better one of a goal that is left."""
    wanted = is_refusal if is_alone else lambda line: any(stands_at(it, line) for it in edit.functions)
    found = [line for line in lines if wanted(line)]
    return next((line for line in found if not LEMMA.match(line)), found[0] if found else "")


def unread(edits, lines):
    """What the compiler says of edits that are no code, by their paths."""
    found = {}
    for before, line in zip([""] + lines, lines):
        place = re.search(r"(src/\S+?):(\d+):\d+", line)
        if place and CODE.search(before + line):
            for edit in edits:
                if edit.file == place[1] and int(place[2]) in edit.places:
                    found.setdefault(edit.path, (before + " " + line).strip())
    return found


def verdicts(edits, text):
    """A word for each edit by its path, and the line that it goes by."""
    lines = BROKEN.sub(" ", text).split("\n")
    if not ENDS.search(text):
        faults = unread(edits, lines)
        return {it.path: (UNREAD, faults[it.path]) if it.path in faults else (UNTOLD, "") for it in edits}
    if PROVES.search(text):
        return {it.path: (PROVED, "") for it in edits}
    found = {it.path: refusal_of(it, lines, len(edits) == 1) for it in edits}
    return {path: (REFUSED, line) if line else (UNTOLD, "") for path, line in found.items()}
