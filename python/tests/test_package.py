"""The package: how it loads, and its types where a checker is there."""

import importlib.util
import os
import pathlib
import shutil
import subprocess
import sys
import unittest

FOLDER = pathlib.Path(__file__).parents[1]
MYPY = [sys.executable, "-m", "mypy"] if importlib.util.find_spec("mypy") else ["mypy"] if shutil.which("mypy") else []


class Package(unittest.TestCase):
    def test_no_library(self) -> None:
        given = {**os.environ, "NFSTREAM_LIBRARY": "/nonexistent/libnfstream.so.1"}
        ran = subprocess.run([sys.executable, "-c", "import nfstream"], cwd=FOLDER, env=given, capture_output=True, text=True)
        self.assertEqual(ran.returncode, 1)
        self.assertIn("ImportError: nfstream needs the shared library libnfstream.so.1", ran.stderr)
        self.assertIn("/nonexistent/", ran.stderr)

    def test_another_library(self) -> None:
        given = {**os.environ, "NFSTREAM_LIBRARY": "libc.so.6"}
        ran = subprocess.run([sys.executable, "-c", "import nfstream"], cwd=FOLDER, env=given, capture_output=True, text=True)
        self.assertIn("ImportError: the library of nfstream has no nf_start", ran.stderr)

    def test_types(self) -> None:
        if not MYPY:
            print("left out: the types: no mypy")
            self.skipTest("mypy is not there")
        ran = subprocess.run([*MYPY, "--cache-dir", os.devnull], cwd=FOLDER, capture_output=True, text=True)
        self.assertEqual(ran.returncode, 0, ran.stdout + ran.stderr)
