#!/usr/bin/env python3
"""Tests of ./run and tools/progress: the words of a call, statuses, and how progress is told. The programs must be built."""

import os
import pathlib
import pty
import shutil
import signal
import subprocess
import sys
import tempfile
import time
import unittest

TOP = pathlib.Path(__file__).resolve().parent.parent
EXAMPLES = TOP / "examples"
J4 = "answer 0\ndelay 260\nstage 0 0 0 0 0\nstage 1 0 1 0 0\nsegment 0 0 1 0 0\n"


def run(*words, **options):
    """Calls ./run."""
    return subprocess.run([TOP / "run", *words], capture_output=True, **options)


def too_large():
    """A job whose search is too large: nine segments of four widths, all weights 0."""
    lines = [f"width resistance {9 - k} capacitance {k + 1}" for k in range(4)]
    lines += ["size resistance 1 gate 1 output 0", "stage size 0"]
    lines += ["segment parent source length 1 widths 0..3 sink capacitance 1 weight 0"] * 9
    return "\n".join(lines) + "\n"


class Words(unittest.TestCase):
    """What ./run does with the words of its call, before it builds."""

    def wrong(self, said, *words):
        result = run(*words)
        self.assertEqual(result.returncode, 2)
        self.assertEqual(result.stdout, b"")
        self.assertIn(said, result.stderr.decode())

    def test_help(self):
        result = run("--help")
        self.assertEqual(result.returncode, 0)
        self.assertTrue(result.stdout.startswith(b"usage: ./run"))
        self.assertEqual(result.stderr, b"")

    def test_no_such_file(self):
        self.wrong("there is no file none.job", "none.job")

    def test_folder(self):
        self.wrong("is a folder", EXAMPLES)

    def test_two_files(self):
        self.wrong("one file at a time, and not 2", EXAMPLES / "j1.job", EXAMPLES / "j2.job")

    def test_empty_word(self):
        self.wrong("there is no file", "")

    def test_unknown_option(self):
        self.wrong("no option --fast", "--fast", EXAMPLES / "j1.job")


class Jobs(unittest.TestCase):
    """What ./run prints, and its status."""

    def test_job_file(self):
        result = run(EXAMPLES / "j4.job")
        self.assertEqual((result.returncode, result.stdout.decode(), result.stderr), (0, J4, b""))

    def test_text_is_packed_on_the_way(self):
        result = run(EXAMPLES / "j4.txt")
        self.assertEqual((result.returncode, result.stdout.decode(), result.stderr), (0, J4, b""))

    def test_text_with_a_fault(self):
        result = run("-", input=b"width resistance 4\n")
        self.assertEqual((result.returncode, result.stdout), (1, b""))
        self.assertEqual(result.stderr, b"standard input:1: width lacks its capacitance\n")

    def test_standard_input(self):
        result = run("-", input=(EXAMPLES / "j4.job").read_bytes())
        self.assertEqual((result.returncode, result.stdout.decode(), result.stderr), (0, J4, b""))

    def test_no_bytes(self):
        result = run("-", input=b"")
        self.assertEqual((result.returncode, result.stdout, result.stderr), (0, b"refused 1\n", b""))

    def test_relative_to_the_caller(self):
        result = run("j4.job", cwd=EXAMPLES)
        self.assertEqual((result.returncode, result.stdout.decode()), (0, J4))

    def test_fault_of_writing(self):
        with open("/dev/full", "wb") as full:
            result = subprocess.run([TOP / "run", EXAMPLES / "j4.job"], stdout=full, stderr=subprocess.PIPE)
        self.assertEqual((result.returncode, result.stderr), (1, b"standard output: No space left on device\n"))

    def test_reply(self):
        result = run("--reply", EXAMPLES / "j4.job")
        self.assertEqual((result.returncode, len(result.stdout), result.stderr), (0, 32, b""))
        self.assertEqual(int.from_bytes(result.stdout[:8], "little"), 260)

    def test_no_rt(self):
        with tempfile.TemporaryDirectory() as folder:
            for name in ("bash", "cat", "dirname", "mktemp", "realpath", "rm", "tr", "wc"):
                os.symlink(shutil.which(name), pathlib.Path(folder) / name)
            result = run(EXAMPLES / "j4.job", env={"PATH": folder})
        self.assertEqual((result.returncode, result.stdout), (1, b""))
        self.assertEqual(result.stderr, b"run: the command rt of the Rattle kit is not found\n")

    def test_reply_of_bounds(self):
        result = run("--reply", "-", input=too_large().encode())
        self.assertEqual((result.returncode, len(result.stdout), result.stderr), (1, 8 * 11, b"refused 14\n"))
        self.assertEqual(result.stdout[:8], b"\xff" * 8)

    def test_refused_reply(self):
        result = run("--reply", "-", input=b"\0" * 16)
        self.assertEqual((result.returncode, result.stdout, result.stderr), (1, b"", b"refused 2\n"))


class Progress(unittest.TestCase):
    """How tools/progress tells what a command proves."""

    COMMAND = """
        echo 'crate lattice: modules loaded=0 checked=67'
        echo 'logic=proved functions=0'
        echo 'some words'
        echo 'rt: chose --jobs 2 for net'
        echo 'crate net: modules loaded=0 checked=119'
        echo 'axioms std: none reached'
        echo 'logic=proved functions=0'
        basename "$PWD"
        exit 3
    """

    def setUp(self):
        self.folder = tempfile.TemporaryDirectory()
        self.log = pathlib.Path(self.folder.name) / "log"
        self.words = [sys.executable, TOP / "tools/progress", self.log, "net", "sh", "-c", self.COMMAND]

    def tearDown(self):
        self.folder.cleanup()

    def test_lines(self):
        result = subprocess.run(self.words, capture_output=True)
        self.assertEqual(result.returncode, 3)
        self.assertEqual(result.stdout, b"")
        # `quantity`, of which the command says nothing, is counted with `net`, which stands on it.
        self.assertRegex(result.stderr, b"^proved lattice \\([0-9]+ s\\), 1 of 3\nproved net \\([0-9]+ s\\), 3 of 3\n$")
        self.assertIn("some words\n", self.log.read_text())
        self.assertTrue(self.log.read_text().endswith("\nnet\n"))

    def test_end_from_outside(self):
        mark = pathlib.Path(self.folder.name) / "mark"
        words = [*self.words[:4], "sh", "-c", f"echo started; sleep 3; touch '{mark}'"]
        for number in (signal.SIGTERM, signal.SIGINT, signal.SIGHUP):
            self.log.unlink(missing_ok=True)
            process = subprocess.Popen(words, stderr=subprocess.PIPE)
            while not self.log.exists() or "started" not in self.log.read_text():
                time.sleep(0.05)
            process.send_signal(number)
            self.assertEqual((process.communicate()[1], process.returncode), (b"", 128 + number))
            time.sleep(3.5)
            self.assertFalse(mark.exists())

    def test_no_such_command(self):
        result = subprocess.run([*self.words[:4], "no-such-command"], capture_output=True)
        self.assertEqual((result.returncode, result.stdout), (127, b""))
        self.assertEqual(result.stderr, b"progress: no-such-command: No such file or directory\n")

    def test_no_such_crate(self):
        result = subprocess.run([*self.words[:3], "none", "true"], capture_output=True)
        self.assertEqual((result.returncode, result.stdout), (2, b""))
        self.assertEqual(result.stderr, b"progress: crates.txt has no crate none\n")

    def test_line_that_moves(self):
        ours, theirs = pty.openpty()
        result = subprocess.run(self.words, stdout=subprocess.PIPE, stderr=theirs)
        os.close(theirs)
        shown = os.read(ours, 4096).decode()
        os.close(ours)
        self.assertEqual((result.returncode, result.stdout), (3, b""))
        self.assertRegex(shown, "\r\033\\[K1 of 3 crates proved, \\d+ min \\d\\d s, at net")
        self.assertRegex(shown, "\r\033\\[K3 of 3 crates proved, \\d+ min \\d\\d s, last net")
        self.assertTrue(shown.endswith("\r\033[K"))


if __name__ == "__main__":
    unittest.main()
