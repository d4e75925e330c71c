"""Store files and pictures: as the command line reads and runs them."""

import dataclasses
import fractions
import html.parser
import json
import os
import pathlib
import random
import re
import struct
import subprocess
import tempfile
import unittest

import starshackle
from starshackle import LARGEST_STORE_PATCH, Flags, Machine, Stored, Verdict, _assembly, _floats, element, picture, read_store
from texts import ASSEMBLY, FLOATS, GDB, in_gdb

ROOT = pathlib.Path(__file__).resolve().parents[2]
BINARY = ROOT / "rust/target/release/starshackle"
EXAMPLES = sorted(ROOT.glob("examples/*.store"))
FILES = [*EXAMPLES, *sorted(ROOT.glob("rust/cli/tests/stores/*.store"))]


def run(path):
    """What the command line answers: its status, JSON and standard error."""
    if not BINARY.exists():
        raise AssertionError(f"{BINARY} isn't there: make it with `cargo build --release` in rust/")
    done = subprocess.run([BINARY, "run", "--json", path], capture_output=True, text=True, check=False)
    return done.returncode, json.loads(done.stdout) if done.stdout else None, done.stderr


def body(path):
    """What stands in the body of the page that the command line makes, and the page."""
    done = subprocess.run([BINARY, "run", "--html", "-", path], capture_output=True, text=True, check=False)
    return done.stdout.partition("<body>\n")[2].rpartition("\n</body>")[0], done.stdout


class Page(html.parser.HTMLParser):
    """A page's tags, which have to be closed in order, and its texts."""

    def __init__(self, page):
        super().__init__()
        self.open, self.cells, self.spans, self.text = [], [], [], ""
        self.feed(page)
        self.close()
        assert not self.open, self.open

    def handle_starttag(self, tag, attributes):
        self.open.append(tag)
        if tag == "tr":
            self.cells.append([])
        if tag == "span":
            self.spans.append(dict(attributes)["title"])

    def handle_endtag(self, tag):
        assert self.open.pop() == tag, tag

    def handle_data(self, data):
        self.text += data
        if self.open[-1:] == ["td"]:
            self.cells[-1].append(data)


class Files(unittest.TestCase):
    """Each file is read, or refused at its line, as the command line does it."""

    def same(self, path):
        """Whether both run the store that a file describes, and answer the same; otherwise both refuse the same line."""
        status, answer, error = run(path)
        if status == 2:
            place = re.search(re.escape(str(path)) + r":\d+: ", error)
            self.assertIsNotNone(place, error)
            with self.assertRaises(ValueError) as raised:
                read_store(path)
            self.assertTrue(str(raised.exception).startswith(place.group()), (error, raised.exception))
            return False
        described = read_store(path)
        word = answer["word"]
        self.assertEqual(described.word, None if word is None else int(word, 16), path)
        self.assertEqual((described.base, described.length), (int(answer["window"]["address"], 16), answer["window"]["length"]))
        self.assertEqual(body(path)[0], described._repr_html_(), path)
        stored = described.run()
        self.assertEqual(stored.verdict, answer["verdict"], path)
        if answer["window"]["memory"] is not None:
            self.assertEqual(described.memory.hex().upper(), answer["window"]["memory"], path)
        if described.word is None:
            self.assertRaisesRegex(ValueError, "no word", described.picture)
            self.assertIn("FIELDS", described._repr_html_())
            return True
        shown = read_store(path).picture()
        self.assertEqual(shown.stored, stored)
        self.assertEqual(shown.memory, described.memory)
        wanted = [(one["active"], int(one["address"], 16), one["bytes"]) for one in answer["elements"] or []]
        found = [(one.active, one.address, value.hex().upper()) for one, value in zip(shown.elements, shown.values)]
        self.assertEqual(found, wanted, path)
        return True

    def test_files(self):
        read = [self.same(path) for path in FILES]
        self.assertGreater(sum(read), 40)
        self.assertGreater(len(read) - sum(read), 20)

    def test_texts(self):
        """Other forms of one file, and damage."""
        whole = (ROOT / "examples/whole.store").read_bytes()
        strided = (ROOT / "examples/strided.store").read_bytes()
        word = b"word   = 0xE4428001"
        texts = [whole.replace(b"\n", b"\r\n"), b"\xef\xbb\xbf" + whole, whole.rstrip(), whole.upper(), whole.replace(b" ", b"\t"),
                 whole.decode().encode("utf-16"), whole.replace(word, b"word = 3829563393"), whole.replace(word, b"word = 12345678"),
                 whole.replace(word, b"word = e4428001"), whole.replace(word, b"word = 1e3"), whole.replace(word, b"word = 0x1E4428001"),
                 b"", b"\n", b"#", b"vb = 16\n", b"word", b"= 5", b"word =", b"word = 1\nword = 2", b"\xff", b"word = 1\n\0", whole * 2,
                 whole + b"x31 = 1", whole + b"x01 = 1", whole + b"pn7 = 0x1", whole + b"x1 = -1", whole + b"x1 = -9223372036854775809",
                 whole + b"z3 = 0x" + b"F" * 32, whole + b"z3 = 0x" + b"F" * 33, whole + b"z3 = 0x", whole + b"z3.q = -1",
                 whole + b"z3.b = 1 ...", whole + b"z3.h = 1 2", whole + b"z3.h = ...", whole + b"z3 = 1", whole + b"z3 = 0102 ...",
                 whole + b"z3.w = 1", whole + b"p3 = 0x1", whole + b"p3.q = 1", whole + b"p3.q = 2", whole + b"memory = 00112233 ...",
                 whole + b"memory = 0011", whole + b"memory = ...", whole + b"sp = 010", whole + b"sp = +1", whole + b"sp = 1_0",
                 whole + "sp = ٣".encode(), whole + b"sp.d = 1", whole + b"edition = Early", whole + b"edition = new",
                 whole + b"window = -1", strided + b"class = 1", strided.replace(b"flags", b"#"), b"class = 10\npg = 1",
                 b"class = 10\nzm = 1", b"class = 12\nrn = 1", b"class = 12\nzn = 1\nrm = 31", b"class = 40\nrm = 1",
                 b"class = 6\nextension = UXTW\nzm = 2\nzt = 1", b"class = 31\nmultiple = +2",
                 b"class = 31\nmultiple = -0x10\nfirst = 23", b"zm = 1\nrm = 1", b"extension = up", b"multiple = 9223372036854775808",
                 b"word = 1\nlength = 70000\nmemory = 01 ...", b"word = 1\nmemory = 01 ...", b"word = 1\nmemory = 01 02",
                 *(b"word = " + text for text in ASSEMBLY), *FLOATS, *GDB,
                 b"word = 1\nvb = 99\nz0 = nonsense", b"word = 1 # = 2\n#\n # x\nvb = 1 6"]
        read = 0
        with tempfile.TemporaryDirectory() as folder:
            for number, text in enumerate(texts):
                path = pathlib.Path(folder, f"{number}.store")
                path.write_bytes(text)
                read += self.same(path)
        self.assertGreater(read, 20)
        self.assertGreater(len(texts) - read, 30)

    def test_assembly(self):
        """The text of words of every class is read as the word, and the syntax is the command line's."""
        table = (ROOT / "rust/starshackle/src/assembly.rs").read_text()
        chosen = random.Random(2)
        for class_, syntax in enumerate(_assembly.SYNTAX, 1):
            self.assertIn(f'    "{syntax}",\n', table)
            for _ in range(20):
                given = starshackle.Store(class_, 31, 1, chosen.randrange(8), chosen.randrange(32), chosen.randrange(32), 0)
                words = [starshackle.encode(dataclasses.replace(given, index=index, extension=how, register=register, multiple=multiple))
                         for index in (0, 31) for how in (0, 2) for register in (given.register, 19) for multiple in (0, -8)]
                for word in {one.word for one in words if one}:
                    store = starshackle.decode(word).store
                    keeps = syntax.endswith("vl}]") and store.multiple != 0 or not syntax.endswith("vl}]") and store.index != 31
                    self.assertEqual(_assembly.word(" ".join(_assembly._text(store, syntax, keeps))), (word, ""))

    def test_contents(self):
        """Memory from a file beside the store's, and files that are none of memory."""
        with tempfile.TemporaryDirectory() as folder:
            folder = pathlib.Path(folder)
            (folder / "inner").mkdir()
            for name, length in [("eight bytes", 8), ("inner/none", 0), ("largest", 65536), ("large", 65537), ("-", 1)]:
                (folder / name).write_bytes(bytes(range(251)) * 262)
                os.truncate(folder / name, length)
            path, read = folder / "some.store", 0
            for value in ["@eight bytes", "@inner/none", "@largest", "@large", "@./-", "@-", "@", "@none", "@inner",
                          "@inner/../eight bytes", f"@{folder}/eight bytes", "@eight bytes ...", "@@", "@" + "x" * 5000, "@ eight bytes"]:
                for length in ["", "length = 8\n", "length = 0\n"]:
                    path.write_text(f"word = 0xE4428001\nvb = 16\nflags = sve\n{length}memory = {value}\n")
                    read += self.same(path)
            self.assertEqual(read, 10)

    def test_gdb(self):
        """Random registers as gdb prints them are read as their bytes; with a digit changed the views differ, or nothing is changed."""
        chosen, refused = random.Random(5), 0
        with tempfile.TemporaryDirectory() as folder:
            path = pathlib.Path(folder, "gdb.store")
            for number in range(60):
                vb = chosen.choice([16, 32, 64, 128, 256])
                register = bytes(chosen.choice([0, 0, 255, chosen.randrange(256)]) for _ in range(vb))
                text = in_gdb(register if number % 3 else register[:4] * (vb // 4))
                text = text.replace(", ", ",\n") if number % 2 else text
                start = f"word = 0xE4428001\nvb = {vb}\nflags = sve\n"
                path.write_text(f"{start}z3 {text}\nz1 = {text}\n")
                self.assertTrue(self.same(path))
                machine = read_store(path).machine
                self.assertEqual(machine.z[3 * vb:4 * vb], register if number % 3 else register[:4] * (vb // 4))
                self.assertEqual(machine.z[vb:2 * vb], machine.z[3 * vb:4 * vb])
                digits = [index for index, letter in enumerate(text) if letter.isdigit()]
                index = chosen.choice(digits)
                path.write_text(f"{start}z1 {text[:index]}{(int(text[index]) + 1) % 10}{text[index + 1:]}\n")
                refused += not self.same(path)
        self.assertGreater(refused, 50)

    def test_floats(self):
        """Numbers are rounded as Python and the command line round them, and halves as exact arithmetic does."""
        chosen = random.Random(3)
        for _ in range(3000):
            text = f"{chosen.choice(['', '-'])}{chosen.randrange(10 ** chosen.choice([1, 5, 20]))}.{chosen.randrange(10 ** 9)}"
            text += chosen.choice(["", f"e{chosen.randrange(-345, 285)}", f"e{chosen.randrange(-12, 3)}"])
            with self.subTest(text):
                self.assertEqual(_floats.of_bits(text, 8), int.from_bytes(struct.pack("<d", float(text)), "little"))
                half, exact = _floats.of_bits(text, 2), abs(fractions.Fraction(text))
                if half is None:
                    self.assertGreaterEqual(exact, 65520)
                    continue
                near = [fractions.Fraction(*struct.unpack("<e", struct.pack("<H", max(0, (half & 0x7FFF) + k)))[0].as_integer_ratio())
                        for k in (-1, 0, 1) if (half & 0x7FFF) + k < 0x7C00]
                self.assertEqual(abs(exact - near[1]), min(abs(exact - one) for one in near))
        for bits in range(0, 0x7C00, 7):
            value = struct.unpack("<e", struct.pack("<H", bits))[0]
            self.assertEqual(_floats.of_bits(repr(value), 2), bits)

    def test_random_floats(self):
        """Many numbers in one file, of each size."""
        chosen = random.Random(4)
        with tempfile.TemporaryDirectory() as folder:
            path = pathlib.Path(folder, "floats.store")
            for width, size, largest in [("h", 2, 4), ("s", 4, 38), ("d", 8, 308)] * 10:
                numbers = [f"{chosen.uniform(-1, 1):.{chosen.choice([3, 17, 30])}f}e{chosen.randrange(-largest - 12, largest)}"
                           for _ in range(256 // size)]
                path.write_text(f"word = st1d {{ z1.d }}, p0, [x0, z2.d]\nvb = 256\nflags = sve\nz1.{width} = {' '.join(numbers)}\n")
                self.assertTrue(self.same(path))

    def test_random_damage(self):
        """Files with bytes changed are read alike, or refused alike."""
        chosen, read = random.Random(1), 0
        letters = b"0123456789abcdefxzp.=#- \n[]{},"
        with tempfile.TemporaryDirectory() as folder:
            path = pathlib.Path(folder, "damaged.store")
            for number in range(150):
                text = bytearray(chosen.choice(EXAMPLES).read_bytes())
                for _ in range(chosen.choice([1, 2, 5])):
                    text[chosen.randrange(len(text))] = chosen.choice(letters)
                path.write_bytes(text)
                read += self.same(path)
        self.assertTrue(20 < read < 140, read)

    def test_long_page(self):
        """More elements than a page shows, a window that it doesn't show whole, and a name with marks in it."""
        with tempfile.TemporaryDirectory() as folder:
            path = pathlib.Path(folder, "<b>&.store")
            path.write_text("word = 0xA1208000\nvb = 256\nflags = sme2 streaming\npn8 = 0x8002\nx0 = 1024\nlength = 4096\n")
            self.assertTrue(self.same(path))
            page = body(path)[1]
        for text in ["&lt;b&gt;&amp;.store: done (verdict 0)</title>", ".. 768 more", ".. 63 lines with no written byte"]:
            self.assertIn(text, page)

    def test_unreadable(self):
        self.assertRaises(FileNotFoundError, read_store, ROOT / "none.store")
        self.assertRaises(IsADirectoryError, read_store, ROOT)
        self.assertRaises(TypeError, read_store, None)
        with tempfile.NamedTemporaryFile() as file:
            file.truncate((16 << 20) + 1)
            self.assertRaisesRegex(ValueError, "more than 16 MiB", read_store, file.name)

    def test_patch(self):
        patch = bytearray(LARGEST_STORE_PATCH)
        stored = read_store(ROOT / "examples/whole.store").run(patch)
        self.assertEqual(stored, Stored(Verdict.DONE, 0, 0, 4, 4, 31, 3))
        self.assertTrue(starshackle.judge(patch[:31]))


class Pictures(unittest.TestCase):
    """A page is well-formed, and says of elements and bytes what the model says."""

    def check(self, machine, base, memory, word):
        before = bytes(memory)
        shown = picture(machine, base, memory, word)
        self.assertEqual(memory, before)
        page = Page(shown._repr_html_())
        self.assertIn(f"{shown.stored.verdict} (verdict {int(shown.stored.verdict)})", page.text)
        self.assertIn("not proved", page.text)
        writers = [None] * len(memory)
        for number in range(element(machine, word, 0).elements):
            one = element(machine, word, number)
            for k in range(one.bytes if one.active and shown.stored else 0):
                writers[one.address + k - base] = number
        self.assertEqual(list(shown.writers), writers)
        for index, writer in enumerate(writers):
            if writer is None:
                self.assertEqual(shown.memory[index], before[index])
            else:
                one = shown.elements[writer]
                self.assertEqual(shown.memory[index], shown.values[writer][index + base - one.address])
        if shown.stored.verdict in (Verdict.DONE, Verdict.FAULT, Verdict.OVERLAP):
            self.assertEqual(page.spans, [f"element {writer}" for writer in writers if writer is not None])
            rows = [cells for cells in page.cells if len(cells) == 4]
            self.assertEqual(len(rows), min(len(shown.elements), 256))
            for number, cells in enumerate(rows):
                one = shown.elements[number]
                self.assertEqual((cells[0], cells[1].startswith("active"), int(cells[2], 16), bytes.fromhex(cells[3])),
                                 (str(number), one.active, one.address, shown.values[number]))
        return shown, page

    def test_examples(self):
        for path in FILES:
            if "wrong" not in path.name and read_store(path).word is not None:
                described = read_store(path)
                self.check(described.machine, described.base, described.memory, described.word)

    def test_lanes(self):
        described = read_store(ROOT / "examples/whole.store")
        shown, page = self.check(described.machine, described.base, described.memory, described.word)
        self.assertEqual(shown.writers, (0, 2, None, None, None, 3, None, None))
        self.assertIn("window at 0x0000000000001000, length 8\n  0x0000000000001000 A1 A3 00 00 00 A4 00 00", page.text)

    def test_faults(self):
        """Every element with a byte outside is marked, and the lowest of them is the verdict's."""
        machine = Machine(flags=Flags.SVE, p=b"\xff" * 32)
        machine.z[32:48] = struct.pack("<4I", 0, 50, 3, 90)
        shown, page = self.check(machine, 0, bytearray(8), 0xE4428001)
        self.assertEqual([cells[1] for cells in page.cells if cells], ["active", "active, fault", "active", "active, fault"])
        self.assertEqual(shown.stored.element, 1)

    def test_long(self):
        """Of a long window the lines near written bytes are shown, and of many elements the first."""
        machine = Machine(vb=256, flags=Flags.SME2 | Flags.STREAMING, z=bytes(range(256)) * 32)
        struct.pack_into("<H", machine.p, 256, 0x8001)
        shown, page = self.check(machine, 0, bytearray(65536), 0xA1608000)
        self.assertEqual((len(shown.elements), shown.stored.elements), (1024, 1024))
        self.assertIn(".. 768 more", page.text)
        self.assertIn(f".. {65536 // 16 - 65} lines with no written byte", page.text)

    def test_refused(self):
        for machine, word in [(Machine(vb=48), 0xE4428001), (Machine(), 0), (Machine(z=b""), 0xE4428001)]:
            shown, page = self.check(machine, 0, bytearray(8), word)
            self.assertFalse(shown.stored)
            self.assertNotIn("window at", page.text)
        self.assertIn("under the late edition", self.check(Machine(vb=48), 0, bytearray(8), 0xE4428001)[1].text)
        self.assertRaises(TypeError, picture, Machine(), 0, None, 0)


if __name__ == "__main__":
    unittest.main()
