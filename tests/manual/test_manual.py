"""Tests manual.py: that it finds what is wrong in a manual."""

import contextlib
import io
import os
import sys
import tempfile
import unittest

sys.path.insert(0, os.path.dirname(os.path.abspath(__file__)))
import manual  # noqa: E402

GOOD = """# A manual

    > two.txt
    one

      two

A command with an empty line in what it prints, and one that prints nothing:

    $ cat two.txt
    one

      two

    $ true
    $ echo a \\
    b; echo c >&2; sh -c 'exit 3'; echo "exit status $?"
    a b
    c
    exit status 3

Behind it.
"""


class Manuals(unittest.TestCase):
    def setUp(self):
        folder = tempfile.TemporaryDirectory()
        self.addCleanup(folder.cleanup)
        self.path = os.path.join(folder.name, "MANUAL.md")
        self.folder = os.path.join(folder.name, "scratch")
        os.mkdir(self.folder)

    def run_over(self, text, *options):
        """The exit status, and all that is printed."""
        with open(self.path, "w", encoding="utf-8") as file:
            file.write(text)
        output = io.StringIO()
        with contextlib.redirect_stdout(output), contextlib.redirect_stderr(output):
            status = manual.main([*options, self.path, self.folder])
        return status, output.getvalue().replace(self.path, "M")

    def content(self):
        with open(self.path, encoding="utf-8") as file:
            return file.read()

    def test_good(self):
        self.assertEqual(self.run_over(GOOD), (0, "M: 3 commands, 0 differ\n"))

    def test_another_answer(self):
        status, said = self.run_over(GOOD.replace("    a b", "    a c"))
        self.assertEqual(status, 1)
        self.assertIn("M:16: $ echo a", said)
        self.assertIn("  the manual has:\n    | a c\n    | c\n    | exit status 3\n  the command prints:\n    | a b\n    | c\n", said)

    def test_answers_missing_and_too_many(self):
        for wrong in (GOOD.replace("    $ true\n", "    $ true\n    more\n"), GOOD.replace("    exit status 3\n", "")):
            self.assertEqual(self.run_over(wrong)[0], 1)

    def test_a_failing_command(self):
        wrong = GOOD.replace("$ true", "$ false")
        for options in ([], ["--write"]):
            status, said = self.run_over(wrong, *options)
            self.assertEqual(status, 1)
            self.assertIn("M:15: $ false\n  it ends with status 1", said)
            self.assertEqual(self.content(), wrong)

    def test_write(self):
        for wrong in (GOOD.replace("    a b", "    a c\n\n    d"), GOOD.replace("    a b\n    c\n    exit status 3\n", ""), GOOD,
                      GOOD.replace("cat two.txt\n    one\n\n      two\n", "cat two.txt\n")):
            self.assertEqual(self.run_over(wrong, "--write")[0], 0)
            self.assertEqual(self.content(), GOOD)

    def test_passed_over(self):
        manual.OPTIONAL.add("no-such-program")
        text = GOOD + "\n    $ no-such-program\n    kept\n"
        for options in ([], ["--write"]):
            status, said = self.run_over(text, *options)
            self.assertEqual(status, 0)
            self.assertIn("M:24: passed over", said)
            self.assertEqual(self.content(), text)

    def test_bad_blocks(self):
        for line, text in [
            (3, "a\n\n    neither\n"), (2, "a\n    $ true\n"), (1, "```\ntrue\n```\n"), (1, "\t$ true\n"), (2, "\n    > a/b\n    c\n"),
            (2, "\n    > ..\n    c\n"), (2, "\n    > empty\n\nb\n"), (4, "\n    > a\n    b\n    $ true\n"), (2, "\n    $ \n"),
            (3, "\n    $ true\n    > a\n    b\n"), (3, "\n    $ true\n    $\n"), (2, "\n    $ true \\\n"), (2, "\n    $ echo '> a'\n"),
            (2, "\n    $ printf '\\033[1m'\n"), (2, "No command.\n"), (5, "\n    > a\n    b\n\n"), (1, ""),
        ]:
            with self.subTest(text=text):
                status, said = self.run_over(text)
                self.assertEqual((status, said.split(": ")[0]), (1, f"M:{line}"))

    def test_too_long(self):
        seconds, manual.SECONDS = manual.SECONDS, 0.2
        try:
            self.assertEqual(self.run_over("\n    $ sleep 5\n"), (1, "M:2: the command takes more than 0.2 s\n"))
        finally:
            manual.SECONDS = seconds

    def test_usage(self):
        for arguments in ([], ["--write"], ["a", "b", "c"], [os.path.join(self.folder, "none"), self.folder]):
            with contextlib.redirect_stderr(io.StringIO()):
                self.assertEqual(manual.main(arguments), 2)


if __name__ == "__main__":
    unittest.main()
