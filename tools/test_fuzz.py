#!/usr/bin/env python3
"""Tests of tools/fuzz, with stand-ins for its programs."""
import pathlib
import subprocess
import sys
import tempfile
import unittest

FUZZ = pathlib.Path(__file__).resolve().parent / "fuzz"
AGREES = "cat"
OTHERWISE = "cat; echo 1"
DIES = "cat; kill -SEGV $$"
FAILS = "cat; exit 3"
HANGS = "exec sleep 60"


class FuzzTest(unittest.TestCase):
    def setUp(self):
        temporary = tempfile.TemporaryDirectory()
        self.addCleanup(temporary.cleanup)
        self.folder = pathlib.Path(temporary.name)

    def program(self, name, body):
        path = self.folder / name
        path.write_text(f"#!/bin/sh\n{body}\n")
        path.chmod(0o755)
        return str(path)

    def fuzz(self, ours, theirs, *args, limit="10"):
        command = [sys.executable, FUZZ, "--limit", limit, ours, theirs, *args]
        return subprocess.run(command, cwd=self.folder, capture_output=True, text=True, timeout=60)

    def fails(self, ours, theirs, *parts, limit="10", kept=True):
        """The run fails with a message of these parts, without a traceback, and leaves the input in fuzz.in."""
        run = self.fuzz(ours, theirs, "5", limit=limit)
        self.assertEqual(run.returncode, 1, run.stderr)
        for part in parts:
            self.assertIn(part, run.stderr)
        self.assertNotIn("Traceback", run.stderr)
        self.assertEqual((self.folder / "fuzz.in").exists(), kept)
        self.assertEqual("the input is in fuzz.in" in run.stderr, kept)

    def test_agreement(self):
        run = self.fuzz(self.program("linkrun", AGREES), self.program("refrun", AGREES), "0.3", "7")
        self.assertEqual((run.returncode, run.stderr), (0, ""))
        self.assertRegex(run.stdout, r"fuzz: [1-9][0-9]* runs?, no signal, no hang, the same answers\n")
        self.assertFalse((self.folder / "fuzz.in").exists())

    def test_hangs(self):
        hangs, agrees = self.program("hangs", HANGS), self.program("agrees", AGREES)
        self.fails(hangs, agrees, "run 1: hangs hung: no end within 0.3 seconds", limit="0.3")

    def test_reference_hangs(self):
        hangs, agrees = self.program("hangs", HANGS), self.program("agrees", AGREES)
        self.fails(agrees, hangs, "run 1: the reference hangs hung: no end within 1 seconds", limit="1")

    def test_dies(self):
        dies, agrees = self.program("dies", DIES), self.program("agrees", AGREES)
        self.fails(dies, agrees, "run 1: dies died by SIGSEGV")

    def test_reference_dies(self):
        agrees = self.program("agrees", AGREES)
        self.fails(agrees, self.program("dies", DIES), "run 1: the reference dies died by SIGSEGV")
        self.fails(agrees, self.program("fails", FAILS), "run 1: the reference fails ended with exit status 3")

    def test_answers_otherwise(self):
        agrees, otherwise = self.program("agrees", AGREES), self.program("otherwise", OTHERWISE)
        self.fails(agrees, otherwise, "run 1: agrees answers otherwise than the reference otherwise")

    def test_missing(self):
        agrees, missing = self.program("agrees", AGREES), str(self.folder / "missing")
        self.fails(missing, agrees, "missing: no such program", kept=False)
        self.fails(agrees, missing, "missing: no such program", kept=False)
        self.fails(agrees, str(FUZZ.parent / "test_fuzz.py") + "x", "no such program", kept=False)
        (self.folder / "broken").write_text("no program")
        (self.folder / "broken").chmod(0o755)
        self.fails(str(self.folder / "broken"), agrees, "broken: cannot be run: Exec format error", kept=False)

    def test_usage(self):
        run = subprocess.run([sys.executable, FUZZ], cwd=self.folder, capture_output=True, timeout=60)
        self.assertEqual(run.returncode, 2)


if __name__ == "__main__":
    unittest.main()
