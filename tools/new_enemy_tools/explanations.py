"""Why an entry has its reply and its findings, in words. The answers explain; the program's audit does not lean on them."""
from typing import Iterator, NamedTuple, Optional

from new_enemy_tools.effects import Effects
from new_enemy_tools.entries import Commit, Entry
from new_enemy_tools.judging import Judgement
from new_enemy_tools.limits import NUMBER
from new_enemy_tools.meaning import Outgrown, Settled
from new_enemy_tools.names import Names
from new_enemy_tools.reach import Reach, commit_at
from new_enemy_tools.reasons import Ground, Reason, Reasons
from new_enemy_tools.token_order import Window, ignored, order_findings, zookie_at
from new_enemy_tools.trace import Trace

SHOWN = 10
# How many commits are looked at, at most, for one after which a reply was right.
LOOKED = 1_000
# What the commits are that a finding is of.
COMMITS = {"F1": "Commits that the token demands and the snapshot does not have", "F2": "Commits that the check had to demand and did not",
           "F3": "Commits before it that it did not look at", "F4": "Commits on later lines that its snapshot takes in",
           "F6": "Commits between its snapshot and that one"}
# What is said of a userset without grounds.
BARE = {"above": ", as above", "long": ", and so on", "": ", which is not declared at the snapshot"}


class Turn(NamedTuple):
    """The commit at which a reply that is wrong at its snapshot came to be wrong, or behind the snapshot came to be right."""

    at: int
    is_after: bool


def turn_of(trace: Trace, effects: Effects, entry: Entry, looked: int = LOOKED) -> Optional[Turn]:
    """The nearest such commit of those before and then of those behind; of each side so many are looked at, at most."""
    touching = Reach(trace, entry.goal, Window(-1, NUMBER)).touching()
    before = [at for at in touching if at <= entry.snapshot]
    for at in before[:-looked - 1:-1]:
        if at and effects.holds(entry.goal, at - 1) == entry.reply:
            return Turn(at, True)
    for at in touching[len(before):len(before) + looked]:
        if effects.holds(entry.goal, at) == entry.reply:
            return Turn(at, False)
    return None


class Explainer:
    """Explains entries of a trace; a judgement is of evidence that was looked at."""

    def __init__(self, trace: Trace, names: Names):
        self.trace, self.names = trace, names
        self.effects = Effects(trace)

    def lines(self, entry: Entry, judgement: Optional[Judgement] = None) -> Iterator[str]:
        yield from self._head(entry)
        try:
            yield from self._body(entry, judgement)
        except Outgrown as fault:
            yield ""
            yield "No more is said: %s." % fault

    def _body(self, entry: Entry, judgement: Optional[Judgement]) -> Iterator[str]:
        is_right = self.effects.holds(entry.goal, entry.snapshot) == entry.reply
        found = list(order_findings(self.trace, entry))
        for finding, related in found:
            yield ""
            yield "%s%s" % (finding, ", see line %d" % related if related else "")
            yield from self._finding(entry, finding.split()[0], related)
        if judgement is not None and judgement.finding is not None and judgement.why:
            yield ""
            yield judgement.finding
            yield judgement.why
        if not is_right:
            yield ""
            yield from self._wrong(entry, judgement)
        elif not found:
            yield "By the rules the reply is right, and its token and snapshot are in order."
        yield ""
        yield from self._why(entry, is_right, judgement)

    def _head(self, entry: Entry) -> Iterator[str]:
        said = "line %d: %s of %s at snapshot %d" % (entry.line, entry.kind, self.names.tuple(entry.goal), entry.snapshot)
        said += " (%s)" % entry.revision if entry.revision else ""
        said += ", reply %s" % str(entry.reply).lower()
        token = zookie_at(entry)
        said += ", without a token" if token is None else ", token of %d" % token
        said += ", version %s" % self.names.version(entry.version) if entry.version is not None else ""
        yield said
        if entry.source:
            yield "recorded at %s" % entry.source

    # Why a goal holds or not

    def _why(self, entry: Entry, is_right: bool, judgement: Optional[Judgement]) -> Iterator[str]:
        """By the evidence that was looked at, where it settles the goal, or by evidence made here."""
        known = judgement.known if judgement is not None else None
        if known is None:
            known = Settled(self.trace.rules, self.trace.store, entry.goal, entry.snapshot)
        reason = Reasons(known, entry.goal.set).of_goal()
        yield ("Why %s:" if is_right else "Why it should be %s:") % ("allowed" if reason.holds else "denied")
        yield from self._told_reason(reason, 1, "")

    def _told_reason(self, reason: Reason, depth: int, behind: str) -> Iterator[str]:
        """A line for the userset, and one for each of its grounds below it."""
        indent = "  " * depth
        bare = "" if reason.grounds else BARE[reason.cut]
        yield "%s%s %s%s%s" % (indent, "in" if reason.holds else "not in", self.names.userset(reason.of), behind, bare)
        for ground in reason.grounds:
            yield from self._told_ground(ground, depth + 1)
        if reason.more:
            yield "%s  and %d more like these" % (indent, reason.more)

    def _told_ground(self, ground: Ground, depth: int) -> Iterator[str]:
        indent, is_there = "  " * depth, ground.touch is not None and ground.touch[1] or ground.why is not None and ground.why.holds
        away = "" if not ground.subtracted else ", which takes it away" if is_there else ", which would take it away"
        if ground.own is not None:
            yield "%s%s is %s%s" % (indent, self.names.tuple(ground.own), self._stored(ground), away)
        elif ground.empty is not None:
            yield "%snothing is stored in %s%s" % (indent, self.names.userset(ground.empty), away)
        elif ground.why is not None:
            by = ", by %s, added %s" % (self.names.tuple(ground.stored), self._at(ground.since)) \
                if ground.stored is not None and ground.since is not None else ""
            yield from self._told_reason(ground.why, depth, by + away)

    def _stored(self, ground: Ground) -> str:
        if ground.touch is None:
            return "not stored"
        at, is_live = ground.touch
        return "%s %s" % ("stored, added" if is_live else "not stored, removed", self._at(at))

    def _at(self, at: int) -> str:
        commit = commit_at(self.trace, at)
        assert commit is not None
        return "at %d (line %d%s)" % (at, commit.line, ", " + commit.source if commit.source else "")

    # The findings

    def _finding(self, entry: Entry, finding: str, related: Optional[int]) -> Iterator[str]:
        window, demanded = ignored(self.trace, entry, finding), None
        yield self._first(entry, finding, related, window)
        if finding == "F5":
            yield "Effect none: the content check itself ignored nothing. Checks that carry the token have findings of their own."
            return
        if finding == "F2":
            at = zookie_at(entry)
            demanded = Window(-1 if at is None else at, self.trace.entries[related or 0].snapshot)
        yield from self._commits(entry, COMMITS[finding], demanded or window, window)
        yield from self._effect(entry, finding, window)

    def _first(self, entry: Entry, finding: str, related: Optional[int], window: Window) -> str:
        at = zookie_at(entry)
        if finding == "F1":
            return "The token demands all commits up to %d, and the service looked at those up to %d, its snapshot." % (window.high, entry.snapshot)
        if finding == "F2":
            issued = self.trace.entries[related or 0].snapshot
            return "Version %s was issued at snapshot %d, so the check had to demand all commits up to %d. %s" % (
                self.names.version(entry.version or ""), issued, issued,
                "It carries no token, and so demands none." if at is None else "Its token demands those up to %d." % at)
        if finding == "F3":
            return "A content check has to look at the newest state. The last commit before it is at %d, and it looked at %d, its snapshot." % (
                window.high, entry.snapshot)
        if finding == "F4":
            return "Its snapshot %d takes in commits that stand on later lines, as if they had been there already." % entry.snapshot
        if finding == "F5":
            return "The content check looked at %d, so its token has to be of %d. %s" % (
                entry.snapshot, entry.snapshot, "No token was stored with the version." if at is None else
                "The token that was stored with the version is %s, of %d." % (entry.zookie, at))
        return self._unknown_version(entry)

    def _unknown_version(self, entry: Entry) -> str:
        goal = entry.goal.set
        later = self.trace.line_that_issues(goal, entry.version or "")
        return "No earlier line issues version %s for %s:%s%s. So it is not known what the check had to see: at most the last commit before it." % (
            entry.version, goal.namespace, goal.id, "; line %d does, behind it" % later if later else "")

    def _wrong(self, entry: Entry, judgement: Optional[Judgement]) -> Iterator[str]:
        """The latest snapshot at which the reply was right, and the commit after it."""
        if judgement is None:
            yield "F10 wrong reply, as this tool finds without evidence"
        elif judgement.finding == "F10 wrong reply":
            yield judgement.finding
        else:
            yield "The reply is wrong, which the evidence does not show"
        yield "By the rules the right reply at snapshot %d is %s." % (entry.snapshot, str(not entry.reply).lower())
        turn = turn_of(self.trace, self.effects, entry)
        if turn is None:
            yield "The reply was right at no snapshot that was looked at."
        elif turn.is_after:
            yield "The latest snapshot at which the reply was right is %d; the commit after it:" % (turn.at - 1)
            yield "  " + self._commit_at_in_words(entry, turn.at)
        else:
            yield "The reply was right at no snapshot up to its own; it is right from %d on, by the commit" % turn.at
            yield "  " + self._commit_at_in_words(entry, turn.at)

    # Commits

    def _commit_at_in_words(self, entry: Entry, at: int) -> str:
        commit = commit_at(self.trace, at)
        assert commit is not None
        return self._commit_in_words(commit, Reach(self.trace, entry.goal, Window(min(at - 1, entry.snapshot), max(at, entry.snapshot))))

    def _commit_in_words(self, commit: Commit, reach: Reach) -> str:
        if commit.changes is not None:
            return "%s: new rules of namespace %s" % (self._at(commit.at), commit.changes)
        touched = [("adds", one) for one in commit.add] + [("removes", one) for one in commit.remove]
        touched.sort(key=lambda one: not reach.bears(one[1]))
        said = ", ".join("%s %s" % (verb, self.names.tuple(one)) for verb, one in touched[:SHOWN])
        more = ", and %d more" % (len(touched) - SHOWN) if len(touched) > SHOWN else ""
        return "%s: %s%s" % (self._at(commit.at), said or "nothing", more)

    def _commits(self, entry: Entry, head: str, demanded: Window, window: Window) -> Iterator[str]:
        """The commits that had to be seen, those first that touch what the goal leads to."""
        between = self.trace.commits.during(*demanded)
        if not between:
            yield head + ": none."
            return
        reach = Reach(self.trace, entry.goal, Window(min(demanded.low, window.low), max(demanded.high, window.high)))
        low, high = demanded
        touching = [at for at in reach.touching() if low < at <= high]
        yield "%s: %d, of which %s on the question." % (
            head, len(between), "%d bear" % len(touching) if len(touching) > 1 else "%s bears" % (len(touching) or "none"))
        bearing = set(touching)
        others = (at for at in (self.trace.commits.ats[place] for place in between) if at not in bearing)
        for mark, listed, count in (("bears on it", iter(touching), len(touching)), ("other", others, len(between) - len(touching))):
            for at in _first_of(listed, SHOWN):
                commit = commit_at(self.trace, at)
                assert commit is not None
                yield "  %s, %s, %s" % (mark, self._where(entry, commit), self._commit_in_words(commit, reach))
            if count > SHOWN:
                yield "  %s: %d more" % (mark, count - SHOWN)

    @staticmethod
    def _where(entry: Entry, commit: Commit) -> str:
        if commit.at > entry.snapshot:
            return "after the snapshot"
        return "within the snapshot" + (", on a later line" if commit.line > entry.line else "")

    def _effect(self, entry: Entry, finding: str, window: Window) -> Iterator[str]:
        """What the ignored commits do to the answer, and whether they were seen after all."""
        which = "on later lines" if finding == "F4" else "after the snapshot"
        if not self.trace.commits.during(*window):
            yield "Effect none: its snapshot takes in all that it had to see."
            return
        effect = self.effects.of(entry, finding).word
        if effect == "none":
            yield "Effect none: no commit %s bears on the question." % which
            return
        was_right = self.effects.holds(entry.goal, window.low) == entry.reply
        if effect == "possible":
            yield ("Effect possible: the reply is right with the commits %s and without them; it does not show whether they were seen."
                   if was_right else "Effect possible: the reply is right only with the commits %s; they were seen after all.") % which
        elif was_right:
            yield "Effect changed: the reply is right without the commits %s, and wrong with them. They were not seen, and %s." % (
                which, "someone was let in" if entry.reply else "someone was kept out")
        else:
            yield "Effect changed: the reply is wrong with the commits %s and without them." % which
        if effect == "changed":
            settled = Settled(self.trace.rules, self.trace.store, entry.goal, window.high)
            reason = Reasons(settled, entry.goal.set).of_goal()
            yield "At %d, the newest state that had to be seen, the user is %s:" % (window.high, "allowed" if reason.holds else "denied")
            yield from self._told_reason(reason, 1, "")


def _first_of(listed: Iterator[int], most: int) -> Iterator[int]:
    for _, one in zip(range(most), listed):
        yield one
