#!/usr/bin/env python3
"""Shows that run_cases.py and soak.py find what is wrong, and that the models agree with all cases.

    tools/test_run_cases.py [PROGRAM]

PROGRAM is what `rt run` or `rt ci` has built, crates/cdrc_words/out/cdrc_words where it isn't given.
"""
import contextlib
import re
import shutil
import subprocess
import sys
import tempfile
import unittest
from concurrent.futures import ProcessPoolExecutor
from pathlib import Path

import run_cases
from models import answers

TOOLS = Path(__file__).resolve().parent
SAMPLE = (
    "script/strong_cycle",
    "script/drop_of_a_name_that_is_not_bound",
    "steps/late_finish",
    "words/three_words",
    "words/slots_6_may_be_too_few",
    "gen/as_many_words_as_are_drawn",
    "usage/nothing",
)
program = run_cases.PROGRAM


def run_tool(tool, *arguments):
    return subprocess.run([sys.executable, tool, *arguments], capture_output=True, text=True)


class RunnerTest(unittest.TestCase):
    """Each test breaks something in a copy of a few cases."""

    def setUp(self):
        folder = tempfile.TemporaryDirectory()
        self.addCleanup(folder.cleanup)
        self.tools, self.cases = Path(folder.name) / "tools", Path(folder.name) / "cases"
        shutil.copytree(TOOLS / "models", self.tools / "models")
        shutil.copy(TOOLS / "run_cases.py", self.tools)
        for name in SAMPLE:
            shutil.copytree(run_cases.CASES / name, self.cases / name)

    def run_cases(self, *arguments):
        return run_tool(self.tools / "run_cases.py", *(arguments or [program]))

    def assert_differs(self, name, told):
        found = self.run_cases()
        self.assertEqual(found.returncode, 1, found.stdout + found.stderr)
        self.assertEqual(re.findall(r"^DIFFERS (.*)", found.stdout, re.MULTILINE), [name])
        self.assertIn(told, found.stdout)
        self.assertTrue(found.stdout.endswith(f"{len(SAMPLE)} cases, 1 differ\n"), found.stdout)

    def assert_refused(self, told, *arguments):
        found = self.run_cases(*arguments)
        self.assertEqual(found.returncode, 1, found.stdout + found.stderr)
        self.assertIn(told, found.stdout + found.stderr)

    def test_untouched_cases_pass(self):
        found = self.run_cases()
        self.assertEqual(found.returncode, 0, found.stdout + found.stderr)
        self.assertEqual(found.stdout, f"{len(SAMPLE)} cases, 0 differ\n")

    def test_each_byte_of_an_output_counts(self):
        file = self.cases / "words/three_words/stdout"
        wanted = file.read_bytes()
        for at in (0, len(wanted) // 2, len(wanted) - 1):
            file.write_bytes(wanted[:at] + bytes([wanted[at] ^ 1]) + wanted[at + 1 :])
            self.assert_differs("words/three_words", f"stdout: at byte {at} of")

    def test_output_that_ends_too_early_or_too_late(self):
        file = self.cases / "script/strong_cycle/stdout"
        wanted = file.read_bytes()
        for broken in (wanted[:-1], wanted + b"\n"):
            file.write_bytes(broken)
            at = min(len(wanted), len(broken))
            self.assert_differs("script/strong_cycle", f"stdout: at byte {at} of")

    def test_output_that_no_file_tells(self):
        (self.cases / "steps/late_finish/stdout").unlink()
        self.assert_differs("steps/late_finish", "stdout: at byte 0 of 0 wanted")

    def test_output_that_is_repeated_once_too_often(self):
        file = self.cases / "gen/as_many_words_as_are_drawn/stdout.repeat"
        file.write_bytes(file.read_bytes().replace(b"100000\n", b"100001\n"))
        self.assert_differs("gen/as_many_words_as_are_drawn", "stdout: at byte")

    def test_status_off_by_one(self):
        (self.cases / "words/three_words/status").write_text("1\n")
        self.assert_differs("words/three_words", "status: wanted 1, found 0")

    def test_other_status_of_a_refusal(self):
        (self.cases / "script/drop_of_a_name_that_is_not_bound/status").write_text("9\n")
        self.assert_differs("script/drop_of_a_name_that_is_not_bound", "status: wanted 9, found 8")

    def test_line_on_standard_error_that_no_file_tells(self):
        (self.cases / "usage/nothing/stderr").unlink()
        self.assert_differs("usage/nothing", "stderr: at byte 0 of 0 wanted")

    def test_line_that_is_missing_on_standard_error(self):
        (self.cases / "words/three_words/stderr").write_text("cdrc_words: usage\n")
        self.assert_differs("words/three_words", "stderr: at byte 0 of 18 wanted and 0 found")

    def test_second_end_is_compared_too(self):
        (self.cases / "words/slots_6_may_be_too_few/stdout").unlink()
        (self.cases / "words/slots_6_may_be_too_few/or/status").write_text("5\n")
        self.assert_differs("words/slots_6_may_be_too_few", "wanted")

    def test_input_that_is_missing(self):
        (self.cases / "script/strong_cycle/f").unlink()
        self.assert_differs("script/strong_cycle", "status: wanted 0, found 3")

    def test_folder_that_is_no_case(self):
        (self.cases / "words/three_words/args").unlink()
        self.assert_refused("no case, since it has no file args: words/three_words")

    def test_no_case_at_all(self):
        shutil.rmtree(self.cases)
        self.cases.mkdir()
        self.assert_refused("0 cases, 0 differ")
        (self.cases / "script").mkdir()
        self.assert_refused("0 cases, 0 differ")

    def test_folder_of_no_command(self):
        (self.cases / "scripts").mkdir()
        self.assert_refused("no such command: scripts")

    def test_names_that_are_not_there(self):
        for name in ("script/none", "bulk", "word"):
            self.assert_refused(f"no such case: {name}", program, name)
        self.assert_refused("no such program: none", "none")

    def test_names_choose_cases(self):
        found = self.run_cases(program, "script", "script/strong_cycle", "usage/nothing")
        self.assertEqual((found.returncode, found.stdout), (0, "3 cases, 0 differ\n"))

    def test_programs_that_do_nothing_or_go_on(self):
        self.assert_refused("7 cases, 7 differ", shutil.which("false"))
        limit, run_cases.TIME_LIMIT = run_cases.TIME_LIMIT, 0.1
        self.addCleanup(setattr, run_cases, "TIME_LIMIT", limit)
        self.assertIsNone(run_cases.run(shutil.which("sleep"), ["9"], self.cases))


class ModelTest(unittest.TestCase):
    def test_models_agree_with_all_cases(self):
        """A model may leave open what a case tells."""
        cases = [case for command in run_cases.COMMANDS for case in run_cases.cases_at(command)]
        self.assertGreaterEqual(len(cases), 300)
        with ProcessPoolExecutor() as workers:
            for case, lines in zip(cases, workers.map(disagreements, cases, chunksize=4)):
                with self.subTest(case.name):
                    self.assertEqual(lines, [])


def disagreements(case):
    """What a case tells otherwise than the model."""
    with tempfile.TemporaryDirectory() as folder:
        case.lay_files(Path(folder))
        found = answers(case.arguments, lambda name: content_in(folder, name))
    found = [run_cases.End(answer.status, answer.stdout, answer.stderr) for answer in found]
    return [line for end in case.ends if end not in found for line in end.differences(found[0])]


def content_in(folder, name):
    """The bytes of a file of the folder, or None where it can't be read."""
    with contextlib.suppress(OSError):
        return (Path(folder) / name.decode()).read_bytes()


class SoakTest(unittest.TestCase):
    def soak(self, *arguments):
        found = run_tool(TOOLS / "soak.py", program, "--seed", "1", "--runs", "40", *arguments)
        lines = re.findall(r"^(\w+): (\d+) runs, (\d+) differ", found.stdout, re.MULTILINE)
        runs = {command: (int(many), int(differing)) for command, many, differing in lines}
        self.assertEqual(list(runs), ["words", "script", "steps"], found.stdout + found.stderr)
        self.assertEqual(sum(many for many, _ in runs.values()), 40)
        return found, runs

    def test_soak_passes(self):
        found, runs = self.soak()
        self.assertEqual(found.returncode, 0, found.stdout)
        for many, differing in runs.values():
            self.assertGreater(many, 0)
            self.assertEqual(differing, 0)

    def test_broken_counts_are_found(self):
        found, runs = self.soak("--broken")
        self.assertEqual(found.returncode, 1)
        for many, differing in runs.values():
            self.assertGreater(differing, many // 2, found.stdout)
        seed = re.search(r"^DIFFERS seed (\d+)", found.stdout, re.MULTILINE)[1]
        with tempfile.TemporaryDirectory() as folder:
            once = ("--seed", seed, "--runs", "1", "--broken", "--keep", folder)
            again = run_tool(TOOLS / "soak.py", program, *once)
            self.assertIn("\n1 runs, 1 differ", again.stdout)
            self.assertTrue(list((Path(folder) / seed).iterdir()))


if __name__ == "__main__":
    if len(sys.argv) > 1:
        program = Path(sys.argv.pop(1)).resolve()
    unittest.main()
