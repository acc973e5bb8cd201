"""Which Python the tools need: 3.9, or they say so in one line; that they are typed, and that nothing in them is unused."""
import ast
import glob
import os
import re
import shutil
import subprocess
import sys
import tempfile
import unittest
from collections import Counter

from tests.installed import python_with
from tests.support import DEV, TOOLS, TOP, Case


def texts_of_python() -> dict[str, str]:
    """The text of each file of Python, also of those whose first line alone says that they are."""
    paths = glob.glob(os.path.join(TOOLS, "**", "*.py"), recursive=True)
    scripts = [path for folder in (TOOLS, DEV, os.path.join(TOP, "rows")) for path in glob.glob(os.path.join(folder, "*"))]
    texts = {}
    for path in [*paths, *(path for path in scripts if os.path.isfile(path) and not path.endswith(".py"))]:
        with open(path, encoding="utf-8") as file:
            text = file.read()
        if path.endswith(".py") or text.startswith("#!/usr/bin/env python3\n"):
            texts[path] = text
    return texts


class Versions(Case):
    def test_all_files_are_python_3_9(self):
        for path, text in texts_of_python().items():
            ast.parse(text, path, feature_version=(3, 9))

    def test_an_older_python(self):
        for module in ("ne", "running"):
            run = subprocess.run([sys.executable, "-c", "import sys; sys.version_info = (3, 8, 0); import new_enemy_tools.commands." + module],
                                 cwd=TOOLS, capture_output=True, text=True, timeout=300)
            self.assertEqual((run.returncode, run.stderr), (3, "the tools need Python 3.9 or a later one, and this is 3.8\n"))

    def test_expressions(self):
        """Of repetitions that give nothing back Python knows from 3.11 on."""
        code = """if True:
            import importlib, pkgutil, re, sys
            sys.version_info = (3, 10, 0)
            import new_enemy_tools
            for one in pkgutil.walk_packages(new_enemy_tools.__path__, "new_enemy_tools."):
                try:
                    found = vars(importlib.import_module(one.name))
                except (SystemExit, ImportError):
                    # what it needs is not installed
                    continue
                for name, value in found.items():
                    pattern = value.pattern if isinstance(value, re.Pattern) else ""
                    if re.search("[*+?}][+]", pattern if isinstance(pattern, str) else pattern.decode("latin-1")):
                        print(one.name, name)
            """
        run = subprocess.run([sys.executable, "-c", code], cwd=TOOLS, capture_output=True, text=True, timeout=300)
        self.assertEqual((run.returncode, run.stdout), (0, ""), run.stderr)


# asyncio calls these of a protocol.
CALLED_FROM_OUTSIDE = {"pause_writing", "resume_writing"}


class Linted(Case):
    def test_pyflakes_finds_nothing(self):
        python = python_with("pyflakes")
        if not python:
            self.skipTest("pyflakes is not installed (python3-pyflakes)")
        run = subprocess.run([python, "-m", "pyflakes", *texts_of_python()], capture_output=True, text=True, timeout=600)
        self.assertEqual((run.returncode, run.stdout + run.stderr), (0, ""))

    def test_a_module_has_a_name_of_its_own(self):
        """But for the services, of which recorder and importer have a module each."""
        names = Counter(os.path.basename(path) for path in texts_of_python() if path.endswith(".py"))
        self.assertEqual({name for name, count in names.items() if count > 1}, {"__init__.py", "openfga.py", "spicedb.py"})

    def test_what_is_defined_is_named_elsewhere(self):
        texts = texts_of_python()
        named = Counter(word for text in texts.values() for word in re.findall(r"\w+", text))
        for path, text in texts.items():
            if "tests" not in os.path.relpath(path, TOOLS).split(os.sep):
                defined = re.findall(r"(?m)^ *(?:async )?(?:def|class) ((?!__)\w+)|^ *((?!__)\w+)(?:: [^=\n]+)? = ", text)
                unnamed = {one or other for one, other in defined if named[one or other] == 1}
                self.assertEqual(unnamed - CALLED_FROM_OUTSIDE, set(), path)


TYPED_TESTS = ["tests/%s.py" % name for name in ("documents", "installed", "ports", "stand_in_openfga_cache", "test_pictures", "test_totals",
                                                 "test_tutorial")]


@unittest.skipUnless(shutil.which("mypy"), "mypy is not installed")
class Types(Case):
    @classmethod
    def setUpClass(cls):
        """What one test found of the package the next one need not find again."""
        cache = tempfile.TemporaryDirectory()
        cls.addClassCleanup(cache.cleanup)
        cls.cache = cache.name

    def test_the_package(self):
        # Which errors a comment leaves out hangs on the version of mypy, and on what is installed beside it.
        self.assert_typed(TOOLS, "new_enemy_tools")

    def test_the_tests_of_documents(self):
        # These stand on tests that have no types.
        self.assert_typed(TOOLS, "--allow-untyped-calls", "--follow-imports=silent", *TYPED_TESTS)

    def test_developers_tools(self):
        self.assert_typed(DEV, "--scripts-are-modules", "pictures", "drawing", "packing", "speeding", "worked", os.path.join(TOP, "rows", "run"))

    def assert_typed(self, folder, *words):
        run = subprocess.run(["mypy", "--strict", "--no-warn-unused-ignores", "--cache-dir", self.cache, *words], cwd=folder,
                             env={**os.environ, "MYPYPATH": TOOLS}, capture_output=True, text=True, timeout=1800)
        self.assertEqual(run.returncode, 0, run.stdout + run.stderr)
