"""Runs the commands of a manual, and compares what they print with what the manual says.

usage: manual.py [--write] MANUAL FOLDER

A block of the manual is what is indented by four spaces, with an empty line before it. It is one of two:

    > NAME              a file: the lines that follow are its content
    $ COMMAND           a command: the lines that follow, up to the next command, are what it prints. A command that ends in a backslash
                        goes on in the next line

In the manual's order, files are written to FOLDER and commands are run there, each by a new sh with nothing on its standard input. What
one prints is its standard output and error; spaces at the ends of lines, and empty lines at the end, aren't compared. A command has to
end with status 0, so that one which doesn't has to show its status: `COMMAND; echo "exit status $?"`. Where a command's program is in
OPTIONAL and isn't on the PATH, the command is passed over.

With --write, what the commands print takes the place of what the manual says, unless a command fails.
Exit status: 0 the manual is true, or is now; 1 it isn't, or a block is bad; 2 bad usage or an unreadable file.
"""

import os
import shutil
import signal
import subprocess
import sys
import tempfile
from dataclasses import dataclass
from typing import Dict, List, Tuple, Union

INDENT = "    "
OPTIONAL = {"make"}
SECONDS = 60  # for one command
KEPT = ["PATH", "HOME", "TMPDIR", "CARGO_HOME", "RUSTUP_HOME", "RUSTUP_TOOLCHAIN"]  # all else could change what is printed


class Bad(Exception):
    """A manual that can't be run: the line, and why."""

    def __init__(self, number: int, why: str) -> None:
        super().__init__(number, why)
        self.number, self.why = number, why


@dataclass
class File:
    number: int  # of its first line, from 1
    name: str
    content: List[str]


@dataclass
class Command:
    number: int
    text: str
    start: int  # what it prints stands in the manual's lines from here, from 0
    expected: List[str]


Step = Union[File, Command]


def without_end(lines: List[str]) -> List[str]:
    """Lines as they are compared: no spaces at their ends, no empty ones at the end."""
    lines = [line.rstrip() for line in lines]
    while lines and not lines[-1]:
        lines.pop()
    return lines


def blocks(lines: List[str]) -> List[Tuple[int, int]]:
    """Where each block starts and ends, from 0."""
    found: List[Tuple[int, int]] = []
    previous = ""
    for place, line in enumerate(lines):
        if line.lstrip().startswith(("```", "~~~")) or line.startswith("\t"):
            raise Bad(place + 1, "a block is indented by four spaces, without a fence or a tab")
        if line.startswith(INDENT) and line.strip():
            if found and not any(text.strip() for text in lines[found[-1][1]:place]):
                found[-1] = found[-1][0], place + 1  # it goes on
            elif previous.strip():
                raise Bad(place + 1, "no empty line before the block")
            else:
                found.append((place, place + 1))
        previous = line
    return found


def read(text: str) -> List[Step]:
    """The manual's files and commands."""
    lines = text.split("\n")
    steps: List[Step] = []
    for first, end in blocks(lines):
        inner = [line[len(INDENT):] for line in lines[first:end]]
        if inner[0].startswith("> "):
            steps.append(read_file(first, inner))
        elif inner[0].startswith("$ "):
            steps += read_commands(first, inner)
        else:
            raise Bad(first + 1, "a block starts with '$ COMMAND' or '> NAME'")
    if not any(isinstance(step, Command) for step in steps):
        raise Bad(len(lines), "no command in the whole manual")
    return steps


def read_file(first: int, inner: List[str]) -> File:
    name = inner[0][2:].strip()
    if not name or name in (".", "..") or "/" in name or " " in name:
        raise Bad(first + 1, f"'{name}' is no plain name of a file")
    for place, line in enumerate(inner[1:], 1):
        if line.startswith(("$ ", "> ")):
            raise Bad(first + place + 1, "a file ends with its block; expected a line of text before this one")
    if len(inner) == 1:
        raise Bad(first + 1, "a file without content")
    return File(first + 1, name, inner[1:])


def read_commands(first: int, inner: List[str]) -> List[Step]:
    found: List[Step] = []
    place = 0
    while place < len(inner):
        number, text = first + place + 1, inner[place][2:]
        while text.endswith("\\"):
            place += 1
            if place == len(inner):
                raise Bad(number, "the command ends in a backslash")
            text += "\n" + inner[place]
        place += 1
        if not text.strip():
            raise Bad(number, "an empty command")
        start = place
        while place < len(inner) and not inner[place].startswith("$ "):
            if inner[place].startswith("> ") or inner[place].rstrip() == "$":
                raise Bad(first + place + 1, "this is neither a command nor printed by one; a file has a block of its own")
            place += 1
        found.append(Command(number, text, first + start, without_end(inner[start:place])))
    return found


def passed_over(command: Command) -> bool:
    program = command.text.split()[0]
    return program in OPTIONAL and shutil.which(program) is None


def run(command: Command, folder: str) -> Tuple[int, List[str]]:
    """How a command ended, and what it printed."""
    environment: Dict[str, str] = {name: os.environ[name] for name in KEPT if name in os.environ}
    environment["LC_ALL"] = "C"
    process = subprocess.Popen(["sh", "-c", command.text], cwd=folder, env=environment, stdin=subprocess.DEVNULL, stdout=subprocess.PIPE,
                               stderr=subprocess.STDOUT, start_new_session=True)
    try:
        output = process.communicate(timeout=SECONDS)[0]
    except subprocess.TimeoutExpired:
        os.killpg(process.pid, signal.SIGKILL)
        process.communicate()
        raise Bad(command.number, f"the command takes more than {SECONDS} s") from None
    text = output.decode("utf-8", "backslashreplace")
    if any(letter < " " and letter not in "\n\t" for letter in text):
        raise Bad(command.number, "the command prints what isn't text")
    printed = without_end(text.split("\n"))
    if any(line.startswith(("$ ", "> ")) or line == "$" for line in printed):
        raise Bad(command.number, "the command prints a line that would be read as a command or a file")
    return process.returncode, printed


def difference(path: str, command: Command, status: int, printed: List[str]) -> str:
    shown = [f"{path}:{command.number}: $ {command.text}"]
    if status != 0:
        shown.append(f"  it ends with status {status}; expected 0, or an 'echo' that shows the status")
    for title, lines in (("the manual has:", command.expected), ("the command prints:", printed)):
        shown += [f"  {title}"] + [f"    | {line}" for line in lines]
    return "\n".join(shown)


def replaced(text: str, answers: List[Tuple[Command, List[str]]]) -> str:
    """The manual with these answers in it."""
    lines = text.split("\n")
    for command, printed in reversed(answers):
        end = command.start + len(command.expected)
        lines[command.start:end] = [INDENT + line if line else "" for line in printed]
    return "\n".join(lines)


def write(path: str, text: str) -> None:
    """The whole file or nothing of it."""
    with tempfile.NamedTemporaryFile("w", encoding="utf-8", newline="", dir=os.path.dirname(path) or ".", delete=False) as file:
        file.write(text)
    shutil.copymode(path, file.name)
    os.replace(file.name, path)


def check(path: str, folder: str, writing: bool) -> int:
    with open(path, encoding="utf-8", newline="") as file:
        text = file.read()
    answers: List[Tuple[Command, List[str]]] = []
    wrong: List[str] = []
    over = failed = 0
    for step in read(text):
        if isinstance(step, File):
            with open(os.path.join(folder, step.name), "w", encoding="utf-8", newline="") as file:
                file.write("\n".join(step.content) + "\n")
            continue
        if passed_over(step):
            print(f"{path}:{step.number}: passed over, since there is no {step.text.split()[0]}")
            over += 1
            continue
        status, printed = run(step, folder)
        answers.append((step, printed))
        failed += status != 0
        if status != 0 or printed != step.expected:
            wrong.append(difference(path, step, status, printed))
    if writing and not failed:
        write(path, replaced(text, answers))
        print(f"{path}: {len(answers)} commands, {len(wrong)} of them with a new answer")
        return 0
    for shown in wrong:
        print(shown, file=sys.stderr)
    print(f"{path}: {len(answers)} commands, {len(wrong)} differ" + f", {over} passed over" * bool(over))
    return 1 if wrong else 0


def main(arguments: List[str]) -> int:
    writing = arguments[:1] == ["--write"]
    arguments = arguments[writing:]
    if len(arguments) != 2:
        print("usage: manual.py [--write] MANUAL FOLDER", file=sys.stderr)
        return 2
    try:
        return check(arguments[0], arguments[1], writing)
    except Bad as bad:
        print(f"{arguments[0]}:{bad.number}: {bad.why}", file=sys.stderr)
        return 1
    except (OSError, UnicodeDecodeError) as error:
        print(f"manual.py: {error}", file=sys.stderr)
        return 2


if __name__ == "__main__":
    sys.exit(main(sys.argv[1:]))
