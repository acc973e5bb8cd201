"""The page on monitoring, behind the steps of the tutorial that it begins with: each command, and what it prints."""
import os
from typing import List

from tests.documents import Shown, read


class Monitoring(Shown):
    def setUp(self) -> None:
        super().setUp()
        clone = os.path.join(self.room, "new_enemy")
        os.mkdir(clone)
        self.link(clone, "tools", "examples")

    def names(self, *folders: str) -> List[str]:
        return sorted(os.listdir(os.path.join(self.room, "audits", *folders)))

    def test_each_command(self) -> None:
        tutorial, page = read("docs", "TUTORIAL.md"), read("docs", "MONITORING.md")
        before, behind = tutorial.split("\n## 3. ")
        beginning, rest = page.split("\nNow do step 3 of the tutorial")
        self.show_text(self.with_free_ports("\n".join([before, beginning, behind.split("\n## 4. ")[0], rest])))
        self.assertEqual(self.names("out", "days"), ["day000001", "index.html", "lock"])
        self.assertEqual([name for name in self.names() if name.endswith(".pid")], [])
