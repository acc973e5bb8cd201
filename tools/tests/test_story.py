"""tools/dev/story, which a workflow runs in front of real services, in front of the stand-ins of both; and what the workflows name."""
import glob
import os
import re
import shutil
import subprocess
import sys
import unittest

from tests.documents import read
from tests.ports import free_port
from tests.support import TOP, Case

MODEL = re.compile(r"-d '(\{\"schema_version\".*?\]\})'\n", re.DOTALL)
STORE = "01HVMMBCMGZNT3SED4Z17ECXCA"


class Workflows(unittest.TestCase):
    def test_what_they_run_is_there(self) -> None:
        for path in glob.glob(os.path.join(TOP, ".github", "workflows", "*.yml")):
            for name in re.findall(r"(?<![\w/])(?:\./|tools/|rows/)[\w./]+", read(path)):
                self.assertTrue(os.path.exists(os.path.join(TOP, name)), (path, name))


@unittest.skipUnless(shutil.which("curl"), "there is no curl")
class Story(Case):
    def told(self, stand_in: "list[str]", *words: str) -> str:
        port = str(free_port())
        service = subprocess.Popen([sys.executable, os.path.join(TOP, "tools", "tests", stand_in[0]), port, *stand_in[1:]], stdout=subprocess.PIPE, text=True)
        try:
            assert service.stdout is not None
            self.assertEqual(service.stdout.readline(), "ready %s\n" % port)
            run = subprocess.run([os.path.join(TOP, "tools", "dev", "story"), words[0], "http://127.0.0.1:" + port, words[1], self.path("story")],
                                 env={**os.environ, "PORT": str(free_port()), "ROUNDS": "3"}, capture_output=True, text=True, timeout=300)
        finally:
            service.terminate()
            service.communicate()
        self.assertEqual(run.returncode, 0, run.stderr)
        return run.stdout

    def test_openfga(self) -> None:
        """By the model of the workflow."""
        [model] = MODEL.findall(read(".github", "workflows", "services.yml"))
        self.put("model.json", model)
        said = self.told(["stand_in_openfga_cache.py", self.path("model.json")], "openfga", STORE)
        self.assertEqual(said.splitlines()[-3:], ["entries 6", "findings 0", "verdict clean"])

    def test_spicedb(self) -> None:
        self.put("key", "story")
        said = self.told(["stand_in_spicedb.py", "--key", "story"], "spicedb", self.path("key"))
        self.assertEqual(said.splitlines()[-3:], ["entries 6", "findings 0", "verdict clean"])


if __name__ == "__main__":
    unittest.main()
