"""One line on a terminal, where a tool works for over a second."""
import io
from unittest import mock

from new_enemy_tools.progress import Progress
from tests.support import Case, Terminal


class Progresses(Case):
    def shown(self, stream: io.StringIO, times: list[float]) -> str:
        with mock.patch("time.monotonic", mock.Mock(side_effect=lambda: times.pop(0) if len(times) > 1 else times[0])):
            with Progress(stream) as progress:
                self.assertEqual(list(progress.follow("read %s lines", (1_000, 2_000, 3_000))), [1_000, 2_000, 3_000])
        return stream.getvalue()

    def test_within_a_second(self) -> None:
        self.assertEqual(self.shown(Terminal(), [0.0, 0.5, 0.9]), "")

    def test_over_a_second(self) -> None:
        self.assertEqual(self.shown(Terminal(), [0.0, 1.5, 1.5, 1.55, 2.5]), "\rread 1,000 lines\x1b[K\rread 3,000 lines\x1b[K\r\x1b[K")

    def test_no_terminal(self) -> None:
        self.assertEqual(self.shown(io.StringIO(), [0.0, 5.0]), "")
