"""How many checks of a trace can be looked at for stale answers: those that name a content version or carry a token."""
from typing import NamedTuple, Optional

from new_enemy_tools.trace_lines import Counted, counted_in

NAME_IT = ("The application has to name the version on each check that shows content: in the header X-Content-Version, where the recorder "
           "writes the log (docs/RECORDING.md), or as `version` in a log of your own (docs/IMPORTING.md).")


class Labels(NamedTuple):
    checks: int
    with_version: int
    with_token: int
    # those that name a version which the log does not know
    with_unknown: int = 0

    def naming(self) -> int:
        """How many name a version, known or not."""
        return self.with_version + self.with_unknown

    def carrying(self) -> int:
        return self.with_token

    @property
    def is_none(self) -> bool:
        """Whether there are checks, and nobody could look for a stale answer to any."""
        return self.checks > 0 and not self.with_version and not self.with_token

    @property
    def counted(self) -> str:
        """Behind the sums; nothing where each check names a version."""
        if self.with_version + self.with_unknown == self.checks:
            return ""
        return "of %s %s a content version%s, %s a token" % (
            _checks(self.checks), _how_many(self.with_version + self.with_unknown, "names", "name"),
            " (%d one that the log does not know)" % self.with_unknown if self.with_unknown else "", _how_many(self.with_token, "carries", "carry"))

    @property
    def note(self) -> Optional[str]:
        """What was not looked for, and what to do about it; nothing where each check names a version."""
        if self.with_version + self.with_unknown == self.checks:
            return None
        if self.is_none and not self.with_unknown:
            said = "Stale answers to checks were not looked for: no check names the content version that it shows, and none carries a token. "
        elif not self.with_version and not self.with_unknown:
            said = ("Stale answers about new content were not looked for: no check names the content version that it shows. Answers older "
                    "than a token were, on checks that carry one. ")
        else:
            said = ("On checks that name no content version, stale answers about new content were not looked for. Answers older than a "
                    "token were, where they carry one. ")
        return said + NAME_IT

    def plus(self, other: "Labels", times: int = 1) -> "Labels":
        return Labels(*(one + times * more for one, more in zip(self, other)))


def _checks(count: int) -> str:
    return "1 check" if count == 1 else "%d checks" % count


def _how_many(count: int, one: str, many: str) -> str:
    return "none %s" % one if not count else "%d %s" % (count, one if count == 1 else many)


def labels_in(lines: bytes) -> Labels:
    """Of lines of a trace; one that the program does not take may be counted or not."""
    return labels_of(counted_in(lines))


def labels_of(found: Counted) -> Labels:
    return Labels(found.checks, found.with_version, found.with_token, found.with_unknown)
