"""The pages: Python in python/README.md runs as written, and what README.md shows of the package is what it prints."""

import contextlib
import io
import re
import sys
import unittest
from unittest import mock

from . import material

PAGE = material.ROOT / "python" / "README.md"


def run(source: str, names: dict[str, object]) -> str:
    """What a piece of Python prints, run at the root of the repository."""
    printed = io.StringIO()
    with contextlib.redirect_stdout(printed), contextlib.chdir(material.ROOT):
        exec(compile(source, str(PAGE), "exec"), names)
    return printed.getvalue()


class Pages(unittest.TestCase):
    """What the pages show."""

    def test_package_page(self) -> None:
        pieces = re.findall(r"^```python\n(.*?)^```$", PAGE.read_text(encoding="utf-8"), re.MULTILINE | re.DOTALL)
        names: dict[str, object] = {}
        printed = []
        with mock.patch.object(sys, "argv", ["", str(material.season() / "worked.bin")]):
            for piece in pieces:
                printed.append(run(piece, names))
        line, made, season = printed
        self.assertEqual(len(line.splitlines()), 13)
        self.assertTrue(line.endswith("Counts(odd=2, even=1)\n"))
        self.assertTrue(made.startswith("40 66 "))
        self.assertTrue(season.startswith("GPS 5 3 9990\n"))

    def test_first_page(self) -> None:
        text = (material.ROOT / "README.md").read_text(encoding="utf-8")
        found = re.search(r"^    \$ PYTHONPATH=python python3 -c '(.*)'\n((?:    .*\n)+)", text, re.MULTILINE)
        assert found
        self.assertEqual(run(found[1], {}), re.sub(r"^    ", "", found[2], flags=re.MULTILINE))
