"""What a machine keeps, which buffers are taken, and what an answer is as a bool and as a text."""

import array
import ast
import copy
import ctypes
import dataclasses
import mmap
import pathlib
import pickle
import struct
import unittest

import starshackle
from starshackle import Edition, Extension, Flags, Machine, Stored, Verdict, X, apply, decode, element, encode, judge, store

SCATTER = 0xE4428001  # st1b { z1.s }, p0, [x0, z2.s, uxtw]
EXAMPLE = bytes.fromhex("5052 0010000000000000 0200 a1a3 5052 0510000000000000 0100 a4 5045 0200")
LEFT = b"\xa1\xa3\0\0\0\xa4\0\0"
Z = struct.pack("<16x4I4I", 0xA1, 0xA2, 0xA3, 0xA4, 0, 1, 1, 5) + bytes(512 - 48)
P = b"\xff" * 32


def mapped(content):
    """An mmap with these bytes."""
    memory = mmap.mmap(-1, len(content))
    memory[:] = content
    return memory


def machine(**lent):
    """The machine of document 01's whole example."""
    return Machine(**{"flags": Flags.SVE, "x": [0x1000] + [0] * 30, "z": Z, "p": P, **lent})


# each makes a buffer with these bytes that can be changed
KINDS = [bytearray, mapped, lambda content: memoryview(bytearray(content)), lambda content: array.array("B", content),
         lambda content: (ctypes.c_uint8 * len(content))(*content), lambda content: (ctypes.c_char * len(content))(*content)]
WIDE = [lambda content: array.array("Q", content), lambda content: memoryview(bytearray(content)).cast("Q"),
        lambda content: (ctypes.c_uint64 * (len(content) // 8)).from_buffer_copy(content)]


class Lengths(unittest.TestCase):
    """A register buffer keeps its length."""

    def test_slices(self):
        for name, length in [("z", 512), ("p", 32)]:
            one = machine(z=None, p=None)
            buffer = getattr(one, name)
            for value in [b"", b"123", bytes(17), iter(b"123"), [1, 2, 3]]:
                with self.assertRaisesRegex(ValueError, f"keeps its length of {length} bytes; this slice takes 16"):
                    buffer[16:32] = value
            with self.assertRaises(ValueError):
                buffer[0:8:2] = b"123"
            for change in [lambda: buffer.append(1), lambda: buffer.extend(b"1"), lambda: buffer.insert(0, 1), buffer.pop, buffer.clear,
                           lambda: buffer.__delitem__(slice(0, 1)), lambda: buffer.__iadd__(b"1"), lambda: buffer.__imul__(2)]:
                self.assertRaises(BufferError, change)
            self.assertEqual(buffer, bytes(length))
            buffer[16:32] = range(16)
            buffer[0], buffer[1:2] = 0xAA, b"\xbb"
            self.assertEqual(buffer[:18], b"\xaa\xbb" + bytes(14) + b"\0\1")

    def test_given_buffers(self):
        """They are pinned as long as they are the machine's, empty ones too."""
        for content in [Z, b""]:
            for make in [bytearray, lambda content: array.array("B", content)]:
                buffer = make(content)
                one = machine(z=buffer)
                self.assertRaises(BufferError, buffer.append, 1)
                self.assertEqual(buffer.tobytes() if isinstance(buffer, array.array) else buffer, content)
                one.z = Z
                buffer.append(1)
        buffer = mapped(Z)
        one = machine(z=buffer)
        self.assertRaises(BufferError, buffer.close)
        del one
        buffer.close()

    def test_x(self):
        one = machine()
        for value in [[1], [1, 2, 3], [], [1, -1], [1, 2**64]]:
            with self.assertRaisesRegex(ValueError, r"\bx\b"):
                one.x[0:2] = value
        for value, error in [(-1, ValueError), (2**64, ValueError), ("1", TypeError), (None, TypeError)]:
            with self.assertRaisesRegex(error, r"x\[3\]"):
                one.x[3] = value
        for index in [31, -32]:
            with self.assertRaises(IndexError):
                one.x[index] = 1
        self.assertFalse(hasattr(one.x, "append"))
        self.assertEqual(one.x, [0x1000] + [0] * 30)
        one.x[-1], one.x[1:3], one.x[4:10:3] = 2**64 - 1, (5, 6), iter([7, 8])
        self.assertEqual(list(one.x), [0x1000, 5, 6, 0, 7, 0, 0, 8] + [0] * 22 + [2**64 - 1])
        self.assertEqual((one.x[1:3], len(one.x), repr(X())), ([5, 6], 31, f"X({[0] * 31})"))
        self.assertTrue(one.x != machine().x and one.x != 5 and X() == X() == (0,) * 31)

    def test_x_is_seen(self):
        """A call sees what is in x, after every way to change it."""
        one = machine()
        addresses = []
        for change in [lambda: None, lambda: one.x.__setitem__(0, 0x2000), lambda: setattr(one, "x", [0x3000] * 31),
                       lambda: setattr(one, "x", array.array("Q", [0x4000] * 31))]:
            change()
            addresses.append(element(one, SCATTER, 0).address)
        self.assertEqual(addresses, [0x1000, 0x2000, 0x3000, 0x4000])

    def test_everything_is_seen(self):
        """Nothing that a machine keeps for the library is old."""
        word, one = SCATTER | 31 << 5, machine(sp=0x1000)
        self.assertEqual(element(one, word, 0).address, 0x1000)
        one.sp = 0x2000
        self.assertEqual(element(one, word, 0).address, 0x2000)
        one.z = b"\1" * 512
        self.assertEqual(element(one, word, 0).address, 0x2000 + 0x1010101)
        one.p = bytes(32)
        self.assertFalse(element(one, word, 0).active)
        one.vb = 32
        self.assertIs(element(one, word, 0).verdict, Verdict.REGISTERS)
        one.vb, one.z, one.p = 48, bytes(32 * 48), bytes(96)
        self.assertIs(element(one, word, 0).verdict, Verdict.LENGTH)
        one.edition = Edition.EARLY
        self.assertTrue(element(one, word, 0))
        one.flags = Flags.STREAMING
        self.assertIs(element(one, word, 0).verdict, Verdict.LENGTH)

    def test_copies(self):
        """A copy has the same registers; a deep one has its own."""
        for lent in [{}, {"z": bytearray(Z)}, {"z": None, "p": None}]:
            one = machine(**lent)
            element(one, SCATTER, 0)
            for deep in [copy.deepcopy(one), pickle.loads(pickle.dumps(one))]:
                self.assertEqual(deep, one)
                deep.x[0] = 0x5000
                self.assertEqual((element(deep, SCATTER, 0).address, element(one, SCATTER, 0).address), (0x5000, 0x1000))
                if not isinstance(one.z, bytes):
                    deep.z[0] = 0x77
                    self.assertEqual(one.z[0], 0)
        one = machine(z=bytearray(Z))
        for shallow in [copy.copy(one), dataclasses.replace(one)]:
            shallow.x[0], shallow.z[32], shallow.sp = 0x6000, 2, 0x10
            self.assertEqual((element(one, SCATTER, 0).address, one.sp), (0x6002, 0))
        self.assertEqual(dataclasses.replace(one, vb=32).vb, 32)


class Buffers(unittest.TestCase):
    """Every kind of buffer, in every place."""

    def test_changed(self):
        for make in KINDS:
            memory, patch = make(bytes(8)), make(b"\x77" * 40)
            self.assertEqual(store(machine(), 0x1000, memory, SCATTER, patch), Stored(Verdict.DONE, 0, 0, 4, 4, 31, 3))
            self.assertEqual((bytes(memory), bytes(patch)), (LEFT, EXAMPLE + b"\x77" * 9))
            applied = make(bytes(8))
            self.assertTrue(apply(0x1000, applied, EXAMPLE))
            self.assertEqual(bytes(applied), LEFT)
            self.assertIs(store(machine(), 0x1001, memory, SCATTER, patch).verdict, Verdict.FAULT)
            self.assertEqual((bytes(memory), bytes(patch)), (LEFT, EXAMPLE + b"\x77" * 9))

    def test_read(self):
        kinds = [*KINDS, bytes, memoryview, lambda content: memoryview(bytearray(content)).toreadonly()]
        for make in [*kinds, *WIDE]:
            one, memory, patch = machine(z=make(Z), p=make(P)), bytearray(8), bytearray(31)
            for _ in range(2):
                self.assertTrue(store(one, 0x1000, memory, SCATTER, patch))
                self.assertEqual((memory, patch), (LEFT, EXAMPLE))
        for make in kinds:
            self.assertTrue(judge(make(EXAMPLE)))
            self.assertTrue(apply(0x1000, bytearray(8), make(EXAMPLE)))

    def test_wide(self):
        """Buffers of wider numbers are as long as their bytes."""
        for make in WIDE:
            memory = make(bytes(8))
            self.assertTrue(store(machine(), 0x1000, memory, SCATTER, bytearray(31)))
            self.assertEqual(memory[0], int.from_bytes(LEFT, "little"))
            memory = make(bytes(16))
            self.assertIs(store(machine(), 0x1000 - 15, memory, SCATTER, bytearray(31)).verdict, Verdict.FAULT)

    def test_kept_buffers_are_seen(self):
        """What changes in a buffer that a machine keeps, is seen; a read-only view of it too."""
        for make in [*KINDS, lambda content: memoryview(storage).toreadonly()]:
            storage = bytearray(Z)
            buffer = make(Z)
            one = machine(z=buffer)
            self.assertEqual(element(one, SCATTER, 0).address, 0x1000)
            target = storage if memoryview(buffer).readonly else memoryview(buffer).cast("B")
            target[32] = 9
            self.assertEqual(element(one, SCATTER, 0).address, 0x1009)
            del target

    def test_file(self):
        """A read-only mapping of a file may be registers, and no window."""
        buffer = mmap.mmap(-1, 512, access=mmap.ACCESS_READ)
        self.assertTrue(store(machine(z=buffer, p=bytes(32)), 0, bytearray(), SCATTER, bytearray(4)))
        with self.assertRaisesRegex(TypeError, "memory .* mmap is read-only"):
            store(machine(), 0x1000, buffer, SCATTER, bytearray(31))
        one = machine(z=buffer)
        buffer.close()
        with self.assertRaisesRegex(ValueError, "^z: "):
            store(one, 0x1000, bytearray(8), SCATTER, bytearray(31))

    def test_refused(self):
        gaps, released = memoryview(bytearray(62))[::2], memoryview(bytearray(31))
        released.release()
        for bad, error in [(gaps, "contiguous"), (released, "released")]:
            for call in [lambda: store(machine(), 0, bad, SCATTER, bytearray(31)), lambda: apply(0, bad, EXAMPLE)]:
                with self.assertRaisesRegex(ValueError, f"memory.*{error}"):
                    call()
            for call in [lambda: store(machine(), 0, bytearray(8), SCATTER, bad), lambda: apply(0, bytearray(8), bad), lambda: judge(bad)]:
                with self.assertRaisesRegex(ValueError, f"patch.*{error}"):
                    call()
            for name in ["z", "p"]:
                with self.assertRaisesRegex(ValueError, f"{name}.*{error}"):
                    machine(**{name: bad})

    def test_nothing_is_kept(self):
        """After a call, memory and patch may be resized and closed."""
        memory, patch = mapped(bytes(8)), bytearray(31)
        store(machine(), 0x1000, memory, SCATTER, patch)
        apply(0x1000, memory, patch)
        judge(patch)
        memory.close()
        patch.append(1)


class Texts(unittest.TestCase):
    """An answer as a bool and as a text, the same on every version of Python."""

    def test_bools(self):
        for verdict in Verdict:
            self.assertIs(bool(verdict), verdict is Verdict.DONE)
            self.assertIs(bool(Stored(verdict, 0, 0, 0, 0, 0, 0)), verdict is Verdict.DONE)
        one, patch = machine(), bytearray(31)
        done = [decode(SCATTER), encode(decode(SCATTER).store), store(one, 0x1000, bytearray(8), SCATTER, patch), element(one, SCATTER, 0),
                apply(0x1000, bytearray(8), EXAMPLE), judge(EXAMPLE)]
        refused = [decode(0), encode(starshackle.Store(0)), store(one, 0, bytearray(8), SCATTER, patch), element(one, 0, 0),
                   apply(0, bytearray(8), EXAMPLE), judge(b"")]
        self.assertTrue(all(answer and answer.done and answer.verdict for answer in done))
        self.assertFalse(any(answer or answer.done or answer.verdict for answer in refused))
        self.assertTrue(done[0] == decode(SCATTER) and Verdict.DONE == 0 and Verdict.FAULT == 7 and Verdict(12) is Verdict.OVERLAP)

    def test_texts(self):
        for kind in [Verdict, Edition, Extension, Flags]:
            for name, one in kind.__members__.items():
                self.assertEqual([str(one), f"{one}", "%s" % one, f"{one:>25}", f"{one:d}", f"{one:#x}"],
                                 [name, name, name, f"{name:>25}", str(int(one)), hex(one)])
                self.assertEqual(repr(one), f"<{kind.__name__}.{name}: {int(one)}>")
        self.assertEqual([str(flags) for flags in [Flags(0), Flags.SME2 | Flags.STRICT, Flags(0x501)]], ["0", "SME2|STRICT", "SVE|0x500"])
        self.assertEqual(str(store(machine(), 0, bytearray(), SCATTER, bytearray()).verdict), "FAULT")

    def test_annotations(self):
        """Every function has an annotation of each parameter and of its answer."""
        functions = []
        for path in sorted(pathlib.Path(starshackle.__file__).parent.glob("*.py")):
            tree = ast.parse(path.read_text(encoding="utf-8"))
            functions += [(path.name, one) for one in ast.walk(tree) if isinstance(one, ast.FunctionDef)]
        self.assertGreater(len(functions), 30)
        for path, function in functions:
            parameters = [one for one in ast.walk(function.args) if isinstance(one, ast.arg) and one.arg != "self"]
            bare = [one.arg for one in parameters if one.annotation is None]
            self.assertTrue(function.returns is not None and not bare, f"{path}:{function.lineno}: {function.name} {bare}")


if __name__ == "__main__":
    unittest.main()
