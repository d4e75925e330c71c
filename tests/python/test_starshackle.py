"""The Python module: document 01's examples, every verdict, wrong arguments, and random calls beside a dict of byte writes."""

import ctypes
import doctest
import importlib
import pathlib
import random
import re
import struct
import unittest

import starshackle
from starshackle import _library
from starshackle import (EARLY_LENGTHS, LARGEST_PATCH, LARGEST_STORE_PATCH, LARGEST_WINDOW, LENGTHS, MOST_DIFFERENCES, Applied, Compared,
                         Decoded, Difference, Edition, Element, Encoded, Extension, Flags, Judged, Machine, Store, Stored, Verdict, apply,
                         compare, decode, element, encode, judge, store)

SCATTER = 0xE4428001  # st1b { z1.s }, p0, [x0, z2.s, uxtw]
STRIDED = 0xA1606000  # st1d { z0.d, z8.d }, pn8, [x0]
QUADWORD = 0xE4232041  # st1q { z1.q }, p0, [z2.d, x3]
EXAMPLE = bytes.fromhex("5052 0010000000000000 0200 a1a3 5052 0510000000000000 0100 a4 5045 0200")
BASES = [0xE5A08000, 0xE5808000, 0xE5A0A000, 0xE580A000, 0xE4008000, 0xE4408000, 0xE400A000, 0xA1206000, 0xA120E000, 0xA1606000,
         0xA160E000, 0xE4202000, 0xE4A08000, 0xE4808000, 0xE4A0A000, 0xE480A000, 0xE4E08000, 0xE4C08000, 0xE5208000, 0xE5008000,
         0xE520A000, 0xE500A000, 0xE5608000, 0xE5408000, 0xA1200000, 0xA1208000, 0xA1600000, 0xA1608000, 0xA1202000, 0xA120A000,
         0xA1602000, 0xA160A000, 0xA1204000, 0xA120C000, 0xA1604000, 0xA160C000]
# strided stores, by class: the registers, and an element's bytes
STRIDED_CLASSES = {first + k: (2 + k % 2 * 2, size) for first, size in [(8, 8), (25, 1), (29, 2), (33, 4)] for k in range(4)}
SCALAR = {8, 9, 25, 26, 29, 30, 33, 34}
# scaled bytes, doublewords in elements of 32 bits, and 64-bit offsets with bits 22..21 as 10 and 11; of narrow strided stores, bit 3 or
# 2 and bit 20 set, and loads
BESIDE = [0xE4208000, 0xE420C000, 0xE420A000, 0xE4608000, 0xE460C000, 0xE5C08000, 0xE5C0C000, 0xE5E08000, 0xE5E0C000, 0xE440A000,
          0xE460A000, 0xE4C0A000, 0xE4E0A000, 0xE540A000, 0xE560A000, 0xE5C0A000, 0xE5E0A000, 0xA1200008, 0xA1602008, 0xA1208004,
          0xA160A008, 0xA120C00C, 0xA1700000, 0xA1000000, 0xA140A000]


def scatter(offsets=(0, 1, 1, 5), data=(0xA1, 0xA2, 0xA3, 0xA4)):
    """The machine of document 01's whole example."""
    machine = Machine(vb=16, flags=Flags.SVE)
    machine.x[0] = 0x1000
    machine.z[16:32] = struct.pack("<4I", *data)
    machine.z[32:48] = struct.pack("<4I", *offsets)
    machine.p[0:2] = b"\xff\xff"
    return machine


class Words(unittest.TestCase):
    def test_stores(self):
        cases = {
            0xE5A0C3E0: Store(1, extension=Extension.SXTW, base=31),
            0xE44380C5: Store(6, 3, Extension.UXTW, 0, 6, 5),
            0xA12A6C97: Store(8, 10, 0, 3, 4, 23),
            0xA1206010: Store(8, register=16),
            0xA16F6000: Store(10, multiple=-2),
            0xA168E000: Store(11, multiple=-32),
            0xE4363D22: Store(12, 22, 0, 7, 9, 2),
            0xE49ABC85: Store(16, 26, 0, 7, 4, 5),
            0xE4E1C000: Store(17, 1, Extension.SXTW),
            0xE54380C5: Store(24, 3, Extension.UXTW, 0, 6, 5),
            0xA13F9FF3: Store(26, 31, 0, 7, 31, 19),
            0xA1673C37: Store(31, 0, 0, 7, 1, 23, 14),
            0xA168C000: Store(36, multiple=-32),
        }
        for word, store in cases.items():
            self.assertEqual(decode(word), Decoded(Verdict.DONE, store))
            self.assertEqual(encode(store), Encoded(Verdict.DONE, word))
        self.assertTrue(decode(0xE44380C5).done)

    def test_classes(self):
        for class_, word in enumerate(BASES, 1):
            self.assertEqual(decode(word).store.class_, class_)

    def test_undefined(self):
        for word in [0xA120E004, 0xA1206008, *BESIDE, 0, 0xFFFFFFFF]:
            self.assertEqual(decode(word), Decoded(Verdict.UNDEFINED, None))

    def test_refused_fields(self):
        stores = [Store(0), Store(37), Store(13), Store(16, extension=1), Store(2**32 + 3), Store(2**64 - 1), Store(3, index=32),
                  Store(3, index=2**32), Store(25, multiple=2), Store(26, register=4), Store(27, index=1), Store(36, multiple=2),
                  Store(3, extension=1), Store(1), Store(1, extension=3), Store(10, index=1), Store(10, register=8),
                  Store(10, multiple=1), Store(10, multiple=16), Store(10, multiple=-2**63), Store(3, multiple=1)]
        for store in stores:
            self.assertEqual(encode(store), Encoded(Verdict.FIELDS, None), store)


class Example(unittest.TestCase):
    """The whole example, and its second form."""

    MACHINES = [(scatter(), 3), (scatter((1, 0, 5, 5), (0xA3, 0xA1, 0x00, 0xA4)), 4)]

    def test_store(self):
        for machine, steps in self.MACHINES:
            for room in [31, 32, LARGEST_STORE_PATCH]:
                memory, patch = bytearray(b"\x77" * 8), bytearray(b"\x77" * room)
                self.assertEqual(store(machine, 0x1000, memory, SCATTER, patch), Stored(Verdict.DONE, 0, 0, 4, 4, 31, steps))
                self.assertEqual(memory, b"\xa1\xa3\x77\x77\x77\xa4\x77\x77")
                self.assertEqual(patch, EXAMPLE + b"\x77" * (room - 31))
                memory.append(0)  # nothing holds on to them
                patch.append(0)

    def test_patch(self):
        self.assertEqual(judge(EXAMPLE), Judged(Verdict.DONE, 0, 0, 2, 3))
        memory = bytearray(8)
        self.assertEqual(apply(0x1000, memory, bytearray(EXAMPLE)), Applied(Verdict.DONE, 0, 0, 2, 3))
        self.assertEqual(memory, b"\xa1\xa3\0\0\0\xa4\0\0")
        memory.append(0)  # nothing holds on to it

    def test_element(self):
        machine = scatter()
        machine.p[0] = 0x0F
        for e, (active, offset) in enumerate([(True, 0), (False, 1), (True, 1), (True, 5)]):
            self.assertEqual(element(machine, SCATTER, e), Element(Verdict.DONE, active, 0x1000 + offset, 16 + 4 * e, 1, 4))
        for e in [4, 2**64 - 1]:
            self.assertEqual(element(machine, SCATTER, e), Element(Verdict.DONE, False, 0, 0, 0, 4))


class Counters(unittest.TestCase):
    """Which elements of a strided store are active."""

    def active(self, vb, counter, word=0xA1606000):
        """The active elements of a store of doublewords from Z0 and Z8; the store moves as many."""
        machine = Machine(vb=vb, flags=Flags.SME2 | Flags.STREAMING)
        struct.pack_into("<H", machine.p, vb, counter)
        count = element(machine, word, 0).elements
        active = [e for e in range(count) if element(machine, word, e).active]
        stored = store(machine, 0, bytearray(1024), word, bytearray(LARGEST_STORE_PATCH))
        self.assertEqual((stored.verdict, stored.elements), (Verdict.DONE, len(active)))
        return active

    def test_document_01(self):
        for counter, active in [(0x0018, [0]), (0x8038, [3]), (0x8000, []), (0x0013, [0, 1]), (0x8008, [0, 1, 2, 3]), (0x8058, [])]:
            self.assertEqual(self.active(16, counter), active, hex(counter))

    def test_short_vectors(self):
        """Document 02 (iii): "0418h over two doubleword registers makes element 0 active and no other"."""
        self.assertEqual(self.active(16, 0x0418), [0])
        self.assertEqual(self.active(16, 0x8418), [1, 2, 3])
        self.assertEqual(self.active(256, 0x0418), list(range(64)))
        for bit in range(7, 15):
            self.assertEqual(self.active(16, 0x0018 | 1 << bit), [0])
            self.assertEqual(self.active(16, 1 << bit), [])

    def test_highest_bit(self):
        """The count goes up to bit log2(4 * vb)."""
        for vb, highest in zip(LENGTHS, range(6, 11)):
            half, whole = list(range(vb // 4)), list(range(vb // 2))
            for size in [1, 2, 4, 8]:
                self.assertEqual(self.active(vb, 1 << highest | size, 0xA160E000), half)
                self.assertEqual(self.active(vb, 0x8000 | 1 << highest | size, 0xA160E000), whole[len(half):])
                for bit in range(highest + 1, 15):
                    self.assertEqual(self.active(vb, 1 << bit | size, 0xA160E000), [])
                    self.assertEqual(self.active(vb, 1 << bit | 1 << highest | size, 0xA160E000), half)


class Narrow(unittest.TestCase):
    """Halfwords and words: only the low part of an element is written."""

    def test_halfwords(self):
        machine = scatter((0, 1, 2**32 - 1, 3), (0xDEAD1111, 0xDEAD2222, 0xDEAD3333, 0xDEAD4444))
        memory, patch = bytearray(b"\x77" * 16), bytearray(LARGEST_STORE_PATCH)
        word = 0xE4E2C001  # st1h { z1.s }, p0, [x0, z2.s, sxtw #1]
        self.assertEqual(store(machine, 0xFF8, memory, word, patch), Stored(Verdict.DONE, 0, 0, 4, 8, 36, 3))
        self.assertEqual(memory.hex(), "77" * 6 + "333311112222" + "7777" + "4444")
        self.assertEqual([element(machine, word, e).address for e in range(4)], [0x1000, 0x1002, 0xFFE, 0x1006])
        word ^= 1 << 14  # uxtw
        self.assertEqual(store(machine, 0xFF8, memory, word, patch), Stored(Verdict.FAULT, 2, 0x200000FFE, 0, 0, 0, 0))

    def test_words(self):
        machine = Machine(vb=32, flags=Flags.SVE | Flags.STREAMING | Flags.FA64, p=b"\xff" * 64)
        machine.x[0] = 0x1000
        machine.z[32:64] = struct.pack("<4Q", *(0xDEADDEAD00000000 | 0x11111111 * k for k in range(1, 5)))
        machine.z[64:96] = struct.pack("<4Q", 0, 0x4000000000000001, 2**64 - 2, 3)
        memory, patch = bytearray(b"\x77" * 32), bytearray(LARGEST_STORE_PATCH)
        word = 0xE522A001  # st1w { z1.d }, p0, [x0, z2.d, lsl #2]
        self.assertEqual(store(machine, 0xFF0, memory, word, patch), Stored(Verdict.DONE, 0, 0, 4, 16, 56, 3))
        self.assertEqual(memory.hex(), "77" * 8 + "33" * 4 + "77" * 4 + "11" * 4 + "22" * 4 + "77" * 4 + "44" * 4)


class NarrowStrided(unittest.TestCase):
    """Strided bytes, halfwords and words, and patches of up to 512 runs."""

    def machine(self, vb, counter):
        machine = Machine(vb=vb, flags=Flags.SME2 | Flags.STREAMING, z=bytes(k % 251 for k in range(32 * vb)))
        struct.pack_into("<H", machine.p, vb, counter)
        machine.x[0] = 0x1000
        return machine

    def registers(self, machine, count):
        """What the registers from Z0 on hold, one behind the other."""
        return b"".join(machine.z[r * machine.vb:][:machine.vb] for r in range(0, 16, 16 // count))

    def test_counters(self):
        """One element in as many bytes as the wider of element and counter has; each a run where that is the counter."""
        for vb in LENGTHS:
            for class_, (count, size) in STRIDED_CLASSES.items():
                word = BASES[class_ - 1] | (31 << 16 if class_ in SCALAR else 0)
                for unit in [1, 2, 4, 8]:
                    machine, gap = self.machine(vb, 0x8000 | unit), max(size, unit)
                    elements, length = count * vb // gap, count * vb
                    runs = 1 if gap == size else elements
                    memory, patch = bytearray(b"\x77" * length), bytearray(LARGEST_STORE_PATCH)
                    stored = store(machine, 0x1000, memory, word, patch)
                    self.assertEqual(stored, Stored(Verdict.DONE, 0, 0, elements, elements * size, 4 + 12 * runs + elements * size, runs))
                    held = self.registers(machine, count)
                    written = bytes(held[k] if k % gap < size else 0x77 for k in range(length))
                    self.assertEqual(memory, written)
                    self.assertEqual(judge(bytes(patch[:stored.length])), Judged(Verdict.DONE, 0, 0, runs, elements * size))

    def test_largest(self):
        """ "A byte store under a halfword counter writes every second byte, so 512 runs can occur." """
        machine, word = self.machine(256, 0x8002), 0xA1608000
        memory, patch = bytearray(1024), bytearray(LARGEST_STORE_PATCH)
        self.assertEqual((LARGEST_STORE_PATCH, LARGEST_PATCH), (6660, 7172))
        self.assertEqual(store(machine, 0x1000, memory, word, patch), Stored(Verdict.DONE, 0, 0, 512, 512, 6660, 512))
        self.assertEqual(patch, encoding({0x1000 + k: memory[k] for k in range(0, 1024, 2)}))
        for room in [0, 1040, 6659]:
            memory, patch = bytearray(1024), bytearray(room)
            self.assertEqual(store(machine, 0x1000, memory, word, patch), Stored(Verdict.NO_ROOM, 0, 0, 0, 0, 0, 0))
            self.assertEqual((memory, patch), (bytes(1024), bytes(room)))

    def test_addresses(self):
        for class_, (count, size) in STRIDED_CLASSES.items():
            machine = self.machine(16, 0)
            machine.x[1] = 3
            word = BASES[class_ - 1] | (1 << 16 if class_ in SCALAR else 15 << 16)
            first = 0x1000 + 3 * size if class_ in SCALAR else 0x1000 - count * 16
            for e in range(count * 16 // size):
                index = e * size // 16 * (16 // count) * 16 + e * size % 16
                self.assertEqual(element(machine, word, e), Element(Verdict.DONE, False, first + e * size, index, size, count * 16 // size))

    def test_sizes_of_patches(self):
        for runs in [64, 65, 256, 511, 512, 513]:
            string = encoding({2 * k: k % 256 for k in range(runs)})
            bad = Judged(Verdict.BAD_PATCH, 512, 13 * 512, 0, 0)
            self.assertEqual(judge(string), bad if runs > 512 else Judged(Verdict.DONE, 0, 0, runs, runs))
            self.assertEqual(apply(0, bytearray(2048), string).verdict, Verdict.BAD_PATCH if runs > 512 else Verdict.DONE)
        largest = encoding({3 * (k // 2) + k % 2: k % 256 for k in range(1024)})
        self.assertEqual((len(largest), judge(largest)), (LARGEST_PATCH, Judged(Verdict.DONE, 0, 0, 512, 1024)))


class Steps(unittest.TestCase):
    """How many active elements don't start where the active one before them ends."""

    # by class: a word, an element's bytes in its register, the bytes that it writes
    CLASSES = {4: (0xE580A000 | 2 << 16 | 1, 8, 8), 7: (0xE400A000 | 2 << 16 | 1, 8, 1), 12: (0xE4202000 | 31 << 16 | 2 << 5 | 1, 16, 16),
               16: (0xE480A000 | 2 << 16 | 1, 8, 2), 18: (0xE4C08000 | 2 << 16 | 1, 4, 2), 22: (0xE500A000 | 2 << 16 | 1, 8, 4),
               24: (0xE5408000 | 2 << 16 | 1, 4, 4)}

    def steps(self, class_, vb, offsets, inactive=()):
        """The steps of a store of VB bytes whose elements lie at these offsets from 1000h."""
        word, esize, _ = self.CLASSES[class_]
        machine = Machine(vb=vb, flags=Flags.SVE | Flags.SVE2P1, p=bytearray(b"\xff" * (2 * vb)))
        machine.x[0] = 0 if class_ == 12 else 0x1000
        for e, offset in enumerate(offsets):
            number = "<Q" if esize >= 8 else "<I"
            struct.pack_into(number, machine.z, 2 * vb + e * esize, offset + (0x1000 if class_ == 12 else 0))
        for e in inactive:
            machine.p[e * esize // 8] &= 0xFF ^ 1 << e * esize % 8
        stored = store(machine, 0x1000, bytearray(4096), word, bytearray(LARGEST_STORE_PATCH))
        self.assertTrue(stored.done)
        self.assertEqual(stored.elements, len(offsets) - len(inactive))
        return stored.steps

    def test_whole_register(self):
        for vb in LENGTHS:
            for class_, (_, esize, size) in self.CLASSES.items():
                count = vb // esize
                contiguous = [size * e for e in range(count)]
                self.assertEqual(self.steps(class_, vb, contiguous), 1)
                self.assertEqual(self.steps(class_, vb, contiguous[::-1]), count)
                self.assertEqual(self.steps(class_, vb, contiguous, range(count)), 0)

    def test_whole_registers(self):
        for vb in LENGTHS:
            for class_, registers in [(8, 2), (9, 4), (10, 2), (11, 4)]:
                machine = Machine(vb=vb, flags=Flags.SME2 | Flags.STREAMING)
                machine.x[0], count = 0x1000, registers * vb // 8
                word = BASES[class_ - 1] | (31 << 16 if class_ < 10 else 0)
                for counter, elements in [(0x8008, count), (0x0018, 1), (0x8018, count - 1), (0x8000, 0)]:
                    struct.pack_into("<H", machine.p, vb, counter)
                    stored = store(machine, 0x1000, bytearray(1024), word, bytearray(LARGEST_STORE_PATCH))
                    self.assertEqual((stored.verdict, stored.elements, stored.steps), (Verdict.DONE, elements, int(elements > 0)))

    def test_breaks(self):
        for offsets, steps in [((0, 8, 16, 24), 1), ((0, 8, 17, 25), 2), ((0, 8, 15, 23), 2), ((24, 16, 8, 0), 4), ((8, 16, 0, 8), 2),
                               ((0, 0, 8, 8), 3), ((4088, 0, 8, 16), 2)]:
            self.assertEqual(self.steps(4, 32, offsets), steps, offsets)

    def test_inactive_lanes(self):
        self.assertEqual(self.steps(4, 32, (0, 8, 16, 24), [1]), 2)
        self.assertEqual(self.steps(4, 32, (0, 100, 8, 16), [1]), 1)  # goes on where the active one before ends
        self.assertEqual(self.steps(4, 32, (0, 8, 16, 24), [0, 3]), 1)


class Editions(unittest.TestCase):
    """Both rules for the vector length."""

    FEATURES = Flags.SVE | Flags.SME2 | Flags.SVE2P1
    MODES = [FEATURES, FEATURES | Flags.STREAMING | Flags.FA64]

    def verdict(self, machine, word):
        return store(machine, 0, bytearray(), word, bytearray(LARGEST_STORE_PATCH)).verdict

    def test_every_length(self):
        for vb in range(600):
            for edition in Edition:
                for flags in self.MODES:
                    machine = Machine(vb=vb, flags=flags, edition=edition)
                    allowed = [n for n in range(16, 257, 16) if n & (n - 1) == 0 or edition is Edition.EARLY and flags == self.FEATURES]
                    self.assertEqual(machine.lengths, tuple(allowed))
                    for word in [SCATTER, QUADWORD, STRIDED, 0]:
                        self.assertEqual(self.verdict(machine, word) is Verdict.LENGTH, vb not in allowed)
                        refused = vb not in allowed or word == STRIDED and vb not in LENGTHS
                        self.assertEqual(element(machine, word, 0).verdict is Verdict.LENGTH, refused)

    def test_sixteen_lengths(self):
        self.assertEqual(EARLY_LENGTHS, tuple(16 * n for n in range(1, 17)))
        for vb in EARLY_LENGTHS:
            machine = Machine(vb=vb, flags=self.FEATURES, edition=Edition.EARLY, p=b"\xff" * (2 * vb))
            self.assertEqual((len(machine.z), len(machine.p)), (32 * vb, 2 * vb))
            self.assertEqual(element(machine, QUADWORD, 0).elements, vb // 16)
            self.assertEqual(element(machine, SCATTER, 0).elements, vb // 4)
            for e in range(vb // 16):
                struct.pack_into("<Q", machine.z, vb + 16 * e, 0x1000 + 16 * e)
                machine.z[16 * e:16 * e + 16] = bytes(range(e, e + 16))
            memory, patch = bytearray(256), bytearray(LARGEST_STORE_PATCH)
            stored = store(machine, 0x1000, memory, 0xE43F2020, patch)  # st1q { z0.q }, p0, [z1.d]
            self.assertEqual(stored, Stored(Verdict.DONE, 0, 0, vb // 16, vb, 16 + vb, 1))
            self.assertEqual(memory, bytes(machine.z[:vb]) + bytes(256 - vb))

    def test_two_editions(self):
        """Two stores of different editions with one patch."""
        patches = []
        for vb, edition, numbers in [(48, Edition.EARLY, [0, 1, 2, 11]), (16, Edition.LATE, [0, 1, 2, 3])]:
            machine = Machine(vb=vb, flags=Flags.SVE, edition=edition)
            machine.x[0] = 0x1000
            for e, offset, byte in zip(numbers, [0, 1, 1, 5], [0xA1, 0xA2, 0xA3, 0xA4]):
                machine.z[vb + 4 * e], machine.z[2 * vb + 4 * e] = byte, offset
                machine.p[e // 2] |= 1 << 4 * (e % 2)
            patch = bytearray(31)
            self.assertIs(store(machine, 0x1000, bytearray(8), SCATTER, patch).verdict, Verdict.DONE)
            patches.append(patch)
        self.assertEqual(patches, [EXAMPLE, EXAMPLE])

    def test_rules(self):
        rule = lambda **machine: Machine(**machine).length_rule()
        five = "it may be 16, 32, 64, 128 or 256"
        self.assertEqual(rule(vb=48), f"vb is 48; under the late edition {five}")
        self.assertEqual(rule(vb=48, flags=Flags.STREAMING), f"vb is 48; under the late edition {five}")
        streaming = rule(vb=48, flags=Flags.STREAMING, edition=Edition.EARLY)
        self.assertEqual(streaming, f"vb is 48; with streaming on, under both editions, {five}")
        multiples = "it may be any multiple of 16 from 16 to 256"
        self.assertEqual(rule(vb=40, edition=Edition.EARLY), f"vb is 40; under the early edition {multiples}")

    def test_flags_have_no_edition(self):
        for flags in [self.FEATURES, self.FEATURES | 256, (1 << 64) - 1 - Flags.STREAMING]:
            self.assertIs(self.verdict(Machine(vb=48, flags=flags), QUADWORD), Verdict.LENGTH)
            self.assertIs(self.verdict(Machine(vb=48, flags=flags, edition=Edition.EARLY), QUADWORD), Verdict.DONE)


class Refusals(unittest.TestCase):
    """Every verdict, with its detail; what is lent stays as it came."""

    def check(self, machine, word, verdict, detail=(0, 0), base=0x1000, length=8, room=LARGEST_STORE_PATCH):
        memory, patch = bytearray(random.Random(length).randbytes(length)), bytearray(b"\x77" * room)
        before = bytes(memory)
        self.assertEqual(store(machine, base, memory, word, patch), Stored(verdict, *detail, 0, 0, 0, 0))
        self.assertEqual(memory, before)
        self.assertEqual(patch, b"\x77" * room)

    def test_length(self):
        for vb in [0, 15, 17, 512, 2**64 - 1]:
            self.check(Machine(vb=vb), SCATTER, Verdict.LENGTH)
            self.assertEqual(element(Machine(vb=vb), SCATTER, 0), Element(Verdict.LENGTH, False, 0, 0, 0, 0))

    def test_registers(self):
        for lent in [{"z": b""}, {"p": b""}, {"z": bytes(511)}, {"z": bytearray(513)}, {"p": bytes(31)}, {"p": bytes(33)}]:
            self.check(Machine(**lent), SCATTER, Verdict.REGISTERS)
            self.assertEqual(element(Machine(**lent), SCATTER, 0), Element(Verdict.REGISTERS, False, 0, 0, 0, 0))

    def test_window(self):
        for base, length in [(0, LARGEST_WINDOW + 1), (2**64 - 16, 17), (2**64 - 1, 2)]:
            self.check(scatter(), SCATTER, Verdict.WINDOW, base=base, length=length)
            self.assertEqual(apply(base, bytearray(length), EXAMPLE), Applied(Verdict.WINDOW, 0, 0, 0, 0))

    def test_undefined(self):
        every = (1 << 64) - 1
        for word in BESIDE:
            self.check(scatter(), word, Verdict.UNDEFINED)
        narrow = [(word, Flags.SVE) for word in BASES[12:24]] + [(word, Flags.SME2) for word in BASES[24:]]
        for word, flag in [(SCATTER, Flags.SVE), (STRIDED, Flags.SME2), (QUADWORD, Flags.SVE2P1), *narrow]:
            self.check(Machine(flags=every ^ flag), word, Verdict.UNDEFINED)
        self.assertEqual(element(scatter(), 0xE4208000, 0), Element(Verdict.UNDEFINED, False, 0, 0, 0, 0))

    def test_illegal(self):
        for word in [SCATTER, *BASES[12:24]]:
            self.check(Machine(flags=Flags.SVE | Flags.STREAMING), word, Verdict.ILLEGAL)
        self.check(Machine(flags=Flags.SVE2P1 | Flags.STREAMING), QUADWORD, Verdict.ILLEGAL)
        for word in [STRIDED, *BASES[24:]]:
            self.check(Machine(flags=Flags.SME2 | Flags.FA64), word, Verdict.ILLEGAL)

    def test_stack(self):
        machine, word = scatter(), SCATTER | 31 << 5
        machine.sp, machine.flags = 0x1001, Flags.SVE | Flags.SP_CHECK
        self.check(machine, word, Verdict.STACK)
        machine.p = bytes(32)
        self.assertEqual(store(machine, 0, bytearray(), word, bytearray(4)), Stored(Verdict.DONE, 0, 0, 0, 0, 4, 0))
        machine.flags |= Flags.SP_CHECK_NONE_ACTIVE
        self.check(machine, word, Verdict.STACK)

    def test_fault(self):
        self.check(scatter(), SCATTER, Verdict.FAULT, (3, 0x1005), length=5)
        self.check(scatter(), SCATTER, Verdict.FAULT, (0, 0x1000), base=0x1001)
        self.check(scatter(), SCATTER, Verdict.FAULT, (0, 0x1000), length=0)
        self.check(scatter(), SCATTER, Verdict.FAULT, (3, 0x1005), length=5, room=0)  # before what is said of the room

    # by word: where element 0's address is given, and its bytes
    FAULTS = {0xE402A001: ("x", 1), 0xE4C28001: ("x", 2), 0xE502A001: ("x", 4), 0xE582A001: ("x", 8), STRIDED: ("x", 8),
              0xA1608000: ("x", 1), 0xA1602000: ("x", 2), 0xA160C000: ("x", 4), 0xE43F2041: ("z", 16)}

    def fault(self, word, first, base, length, address):
        """Element 0 alone, which lies at `first`, faults at this address, and keeps its first one; None where it is done."""
        first, features = first % 2**64, Flags.SVE | Flags.SME2 | Flags.SVE2P1
        machine = Machine(flags=features | Flags.STREAMING | Flags.FA64)
        machine.p[0], machine.p[16] = 0x01, 0x18
        if self.FAULTS[word][0] == "x":
            machine.x[0] = first
        else:
            struct.pack_into("<Q", machine.z, 32, first)
        one, other = element(machine, word, 0), element(machine, word, 1)
        self.assertEqual((one.active, one.address, one.bytes, other.active), (True, first, self.FAULTS[word][1], False))
        if address is None:
            self.assertTrue(store(machine, base, bytearray(length), word, bytearray(32)).done)
        else:
            self.check(machine, word, Verdict.FAULT, (0, address % 2**64), base=base, length=length, room=32)

    def test_fault_at_0(self):
        """Document 02 (ii): a doubleword at FFFFFFFFFFFFFFFCh over a 16-byte window ending at 2^64."""
        for word in [0xE582A001, STRIDED]:
            self.fault(word, 0xFFFFFFFFFFFFFFFC, 2**64 - 16, 16, 0)

    def test_fault_byte(self):
        for word, (_, size) in self.FAULTS.items():
            self.fault(word, 0x1000 - size, 0x1000, 64, 0x1000 - size)  # below the window
            self.fault(word, 0x1040, 0x1000, 64, 0x1040)  # behind it
            self.fault(word, 64, 0, 64, 64)
            self.fault(word, 0, 2**64 - 64, 64, 0)
            self.fault(word, 0x1000, 0x1000, 0, 0x1000)  # no window
            self.fault(word, 0, 0, 0, 0)
            for k in range(1, size):
                self.fault(word, 0x1000 - k, 0x1000, 64, 0x1000 - k)  # from below into it
                self.fault(word, 0x1040 - k, 0x1000, 64, 0x1040)  # from inside out of it
                self.fault(word, 64 - k, 0, 64, 64)
                self.fault(word, -k, 2**64 - 64, 64, 0)  # and past 2^64
                self.fault(word, -k, 0, 64, -k)  # past 2^64 into it
                if k + 1 < size:
                    self.fault(word, 0x1000 - k, 0x1000, size - k - 1, 0x1000 - k)  # over both its ends

    def test_fault_byte_by_byte(self):
        """Every place around short windows, looked through byte by byte."""
        for word, (_, size) in self.FAULTS.items():
            for length in [0, 1, 2, size - 1, size, size + 1, 2 * size]:
                for base in [0, 1, 0x1000, 2**64 - 1 - length, (2**64 - length) % 2**64]:
                    for first in range(base - size - 1, base + length + 2):
                        addresses = [(first + k) % 2**64 for k in range(size)]
                        outside = [address for address in addresses if not base <= address < base + length]
                        self.fault(word, first, base, length, outside[0] if outside else None)

    def strict(self, word, step, size, addresses, named, **lent):
        """Elements at these addresses are refused with 12 in strict mode, which names this one; None where they are done."""
        machine = Machine(vb=64, flags=Flags.SVE | Flags.SVE2P1 | Flags.STRICT)
        machine.x[0] = 0x1000
        for e, address in enumerate(addresses):
            if address is not None:
                struct.pack_into("<I", machine.z, 2 * 64 + e * step, address - 0x1000)
                machine.p[e * step // 8] |= 1 << e * step % 8
        active = [address for address in addresses if address is not None]
        self.assertEqual(element(machine, word, len(addresses) - 1).bytes, size)
        if named is None:
            written = {address + k for address in active for k in range(size)}
            stored = store(machine, 0x1000, bytearray(64), word, bytearray(LARGEST_STORE_PATCH))
            self.assertEqual((stored.verdict, stored.elements, stored.bytes), (Verdict.DONE, len(active), len(written)))
        else:
            self.check(machine, word, Verdict.OVERLAP, (named, addresses[named]), length=64, **lent)
            self.check(machine, word, Verdict.FAULT, (0, addresses[0]), base=addresses[0] + 1, length=64, **lent)
            machine.flags ^= Flags.STRICT
            self.assertTrue(store(machine, 0x1000, bytearray(64), word, bytearray(LARGEST_STORE_PATCH)).done)

    def test_overlap(self):
        """Document 02 (viii): words of each width, with an element's bytes in its register and in memory."""
        words = [(0xE402A001, 8, 1), (0xE4428001, 4, 1), (0xE482A001, 8, 2), (0xE4C28001, 4, 2), (0xE502A001, 8, 4),
                 (0xE5428001, 4, 4), (0xE582A001, 8, 8), (0xE4202041, 16, 16)]
        for word, step, size in words:
            self.strict(word, step, size, [0x1010, 0x1010 + size], None)  # touching
            self.strict(word, step, size, [0x1010 + size, 0x1010], None)
            self.strict(word, step, size, [0x1010, None, None, 0x1010][:64 // step], 3)  # far apart in number
            self.strict(word, step, size, [0x1010, None, 0x1010, 0x1010][:64 // step], 2)  # the lowest
            for k in range(size):  # by one byte too
                for room in [0, LARGEST_STORE_PATCH]:
                    self.strict(word, step, size, [0x1010, 0x1010 + k], 1, room=room)
                    self.strict(word, step, size, [0x1010 + k, 0x1010], 1, room=room)
        self.check(scatter(), SCATTER, Verdict.NO_ROOM, room=30)
        strict = scatter()
        strict.flags |= Flags.STRICT
        self.check(strict, SCATTER, Verdict.OVERLAP, (2, 0x1001), room=30)

    def test_no_room(self):
        for room in [0, 1, 30]:
            self.check(scatter(), SCATTER, Verdict.NO_ROOM, room=room)

    def test_bad_patch(self):
        for bad, acceptable, offset in [(b"", 0, 0), (EXAMPLE[:20], 1, 14), (EXAMPLE[:-1], 2, 27), (EXAMPLE + b"\0", 2, 27)]:
            memory = bytearray(b"\x77" * 8)
            self.assertEqual(judge(bad), Judged(Verdict.BAD_PATCH, acceptable, offset, 0, 0))
            self.assertEqual(apply(0x1000, memory, bad), Applied(Verdict.BAD_PATCH, 0, 0, 0, 0))
            self.assertEqual(memory, b"\x77" * 8)

    def test_outside(self):
        for base, length, detail in [(0x1000, 5, (1, 0x1005)), (0x1001, 8, (0, 0x1000)), (0x1000, 0, (0, 0x1000))]:
            memory = bytearray(b"\x77" * length)
            self.assertEqual(apply(base, memory, EXAMPLE), Applied(Verdict.OUTSIDE, *detail, 0, 0))
            self.assertEqual(memory, b"\x77" * length)


class Differences(unittest.TestCase):
    """Where two patches differ."""

    EMPTY = b"PE\0\0"

    def differ(self, first, second, *differences):
        """The differences, and those of the exchanged strings; nothing holds on to bytearrays."""
        done = Compared(Verdict.DONE, None, [Difference(*difference) for difference in differences])
        exchanged = [Difference(address, other, one) for address, one, other in differences]
        self.assertEqual(compare(first, second), done)
        self.assertTrue(done.done)
        lent = bytearray(second), bytearray(first)
        self.assertEqual(compare(*lent), Compared(Verdict.DONE, None, exchanged))
        for one in lent:
            one.append(0)
        self.assertEqual(lent, (second + b"\0", first + b"\0"))

    def test_equal(self):
        for patch in [EXAMPLE, self.EMPTY]:
            self.differ(patch, patch)

    def test_bytes_and_addresses(self):
        self.differ(EXAMPLE, EXAMPLE.replace(b"\xa3", b"\x00"), (0x1001, 0xA3, 0))
        self.differ(EXAMPLE, self.EMPTY, (0x1000, 0xA1, None), (0x1001, 0xA3, None), (0x1005, 0xA4, None))
        joined = encoding({0x1000 + k: byte for k, byte in enumerate(b"\xa1\xa3\1\2\3\xff")})
        self.differ(EXAMPLE, joined, (0x1002, None, 1), (0x1003, None, 2), (0x1004, None, 3), (0x1005, 0xA4, 0xFF))

    def test_ends(self):
        self.differ(encoding({0: 1, 2**64 - 1: 2}), encoding({0: 3, 2**64 - 2: 4}), (0, 1, 3), (2**64 - 2, None, 4), (2**64 - 1, 2, None))

    def test_most(self):
        first, second = ({base + 2 * k: k % 256 for k in range(512)} for base in [0, 5000])
        first.update((address + 1, 7) for address in list(first))
        second.update((address + 1, 8) for address in list(second))
        compared = compare(encoding(first), encoding(second))
        self.assertEqual(len(compared.differences), MOST_DIFFERENCES)
        self.assertEqual([difference.address for difference in compared.differences], [*sorted(first), *sorted(second)])

    def test_no_patch(self):
        for bad in [b"", EXAMPLE[:-1], EXAMPLE + b"\0"]:
            self.assertEqual(compare(bad, EXAMPLE), Compared(Verdict.BAD_PATCH, 0, None))
            self.assertEqual(compare(EXAMPLE, bad), Compared(Verdict.BAD_PATCH, 1, None))
            self.assertEqual(compare(bad, bad), Compared(Verdict.BAD_PATCH, 0, None))
            self.assertFalse(compare(bad, EXAMPLE).done)

    def test_arguments(self):
        for bad in [None, [0] * 4, "PE", 4]:
            for name, lent in [("first", (bad, EXAMPLE)), ("second", (EXAMPLE, bad))]:
                with self.assertRaisesRegex(TypeError, rf"\b{name}\b"):
                    compare(*lent)
        one = bytearray(EXAMPLE)  # what is only read may be shared
        self.assertEqual(compare(one, memoryview(one)).differences, [])


class Arguments(unittest.TestCase):
    """What can't be lent is refused before the call, and says which argument it is."""

    def refused(self, error, name, call, *arguments, **named):
        with self.assertRaisesRegex(error, rf"\b{name}\b"):
            call(*arguments, **named)

    def test_words(self):
        for call in [decode, lambda word: store(scatter(), 0, bytearray(), word, bytearray()), lambda word: element(scatter(), word, 0)]:
            for word in [-1, 2**32, 2**64]:
                self.refused(ValueError, "word", call, word)
            for word in [None, "E4428001", 1.0, b"\1\2\3\4"]:
                self.refused(TypeError, "word", call, word)

    def test_numbers(self):
        for bad, error in [(-1, ValueError), (2**64, ValueError), (1.5, TypeError), (None, TypeError), ("1", TypeError)]:
            self.refused(error, "base", store, scatter(), bad, bytearray(8), SCATTER, bytearray(31))
            self.refused(error, "base", apply, bad, bytearray(8), EXAMPLE)
            self.refused(error, "number", element, scatter(), SCATTER, bad)
            for name in ["vb", "flags", "sp"]:
                machine = scatter()
                self.refused(error, name, setattr, machine, name, bad)
                self.refused(error, name, Machine, **{name: bad})
                self.assertEqual(machine, scatter())
            for name in ["class_", "index", "extension", "predicate", "base", "register"]:
                self.refused(error, name, encode, Store(**{"class_": 6, name: bad}))
        for multiple in [2**63, -2**63 - 1]:
            self.refused(ValueError, "multiple", encode, Store(10, multiple=multiple))

    def test_x(self):
        for bad, error in [([0] * 30, ValueError), ([0] * 32, ValueError), ([0] * 30 + [2**64], ValueError), ([0] * 30 + [-1], ValueError),
                           ([0] * 30 + [None], TypeError), (bytes(31), TypeError), ("0" * 31, TypeError), (0, TypeError)]:
            self.refused(error, "x", Machine, x=bad)
            machine = scatter()
            self.refused(error, "x", setattr, machine, "x", bad)
            self.assertEqual(machine, scatter())

    def test_buffers(self):
        memory, patch = bytearray(b"\x77" * 8), bytearray(b"\x77" * 31)
        for bad in [None, [0] * 8, "12345678", 8]:
            self.refused(TypeError, "memory", apply, 0x1000, bad, EXAMPLE)
            self.refused(TypeError, "patch", apply, 0x1000, memory, bad)
            self.refused(TypeError, "patch", judge, bad)
            for name in ["z", "p"]:
                machine = scatter()
                self.refused(TypeError, name, setattr, machine, name, bad)
                if bad is not None:
                    self.refused(TypeError, name, Machine, **{name: bad})
                self.assertEqual(machine, scatter())
        self.refused(TypeError, "memory", apply, 0x1000, bytes(8), EXAMPLE)
        for bad in [None, [0] * 8, "12345678", 8, bytes(31), memoryview(bytes(31))]:
            self.refused(TypeError, "memory", store, scatter(), 0x1000, bad, SCATTER, patch)
            self.refused(TypeError, "patch", store, scatter(), 0x1000, memory, SCATTER, bad)
        self.assertEqual((memory, patch), (b"\x77" * 8, b"\x77" * 31))

    def test_shared_buffers(self):
        machine, memory, patch = scatter(), bytearray(8), bytearray(EXAMPLE)
        for name in ["x", "z", "p"]:
            shared = getattr(machine, name)
            self.refused(ValueError, f"memory and {name}", store, machine, 0x1000, shared, SCATTER, patch)
            self.refused(ValueError, f"patch and {name}", store, machine, 0x1000, memory, SCATTER, shared)
            self.refused(ValueError, f"memory and {name}", store, machine, 0x1000, memoryview(shared).cast("B")[-1:], SCATTER, patch)
        self.refused(ValueError, "memory and patch", store, machine, 0x1000, patch, SCATTER, patch)
        self.refused(ValueError, "memory and patch", apply, 0x1000, patch, patch)
        self.assertEqual((machine, memory, patch), (scatter(), bytes(8), EXAMPLE))
        empty = bytearray()  # shares no byte
        self.assertIs(store(machine, 0x1000, empty, SCATTER, empty).verdict, Verdict.FAULT)
        self.assertIs(apply(0x1000, empty, empty).verdict, Verdict.BAD_PATCH)
        machine.p = machine.z = bytearray(b"\xff" * 512)  # what is only read may be shared
        self.assertIs(store(machine, 0x1000, memory, SCATTER, patch).verdict, Verdict.REGISTERS)

    def test_parts_of_one_buffer(self):
        """Parts that touch are lent, those that share a byte are not."""
        common = memoryview(bytearray(39))
        for first in range(9):
            memory, patch = common[first:first + 8], common[8:]
            if first == 0:
                self.assertTrue(store(scatter(), 0x1000, memory, SCATTER, patch))
                self.assertEqual(common, b"\xa1\xa3\0\0\0\xa4\0\0" + EXAMPLE)
            else:
                self.refused(ValueError, "memory and patch", store, scatter(), 0x1000, memory, SCATTER, patch)
                self.refused(ValueError, "memory and patch", apply, 0x1000, memory, patch)
        self.assertEqual(common, b"\xa1\xa3\0\0\0\xa4\0\0" + EXAMPLE)

    def test_classes(self):
        self.refused(TypeError, "machine", store, None, 0, bytearray(8), SCATTER, bytearray(31))
        self.refused(TypeError, "machine", element, {}, SCATTER, 0)
        for edition in [None, 256, "early", Flags.SVE]:
            self.refused(TypeError, "edition", Machine, edition=edition)
        self.refused(TypeError, "store", encode, (6, 0, 0, 0, 0, 0, 0))


# ---- patches, written independently: a set of byte writes is a dict from address to byte

def runs_of(writes):
    """The runs of a set, as lists of addresses."""
    runs = []
    for address in sorted(writes):
        if runs and runs[-1][-1] + 1 == address:
            runs[-1].append(address)
        else:
            runs.append([address])
    return runs


def encoding(writes):
    """The string of a set."""
    string, runs = b"", runs_of(writes)
    for addresses in runs:
        string += b"PR" + struct.pack("<QH", addresses[0], len(addresses)) + bytes(writes[address] for address in addresses)
    return string + b"PE" + struct.pack("<H", len(runs))


def read(string):
    """The set whose string this is, or None: reads what can be read, and compares its encoding."""
    writes, at = {}, 0
    while string[at:at + 2] == b"PR" and len(string) >= at + 12:
        start, length = struct.unpack_from("<QH", string, at + 2)
        payload = string[at + 12:at + 12 + length]
        writes.update((start + k, byte) for k, byte in enumerate(payload))
        at += 12 + length
    small = len(runs_of(writes)) <= 512 and len(writes) <= 1024 and all(address < 2**64 for address in writes)
    return writes if small and encoding(writes) == string else None


def laid(writes, base, memory):
    """The window's bytes with the set laid over them, or None where it isn't in the window."""
    after = bytearray(memory)
    for address, byte in writes.items():
        if not base <= address < base + len(memory):
            return None
        after[address - base] = byte
    return after


class Random(unittest.TestCase):
    """Random calls, compared with the dict."""

    def setUp(self):
        self.random = random.Random(1)

    def writes(self, base, length):
        """A set with bytes near a window."""
        chosen = self.random
        writes = {}
        count = chosen.choice([0, 1, 2, 3, 10, 64, 65, 70, 300, 520, 600])
        outside, lengths = (0.1, [1, 1, 2, 5, 20]) if count < 100 else (0.001, [1])
        for _ in range(count):
            start = base + chosen.randrange(-2, length + 2) if chosen.random() < outside else base + chosen.randrange(max(1, length - 20))
            for address in range(start, start + chosen.choice(lengths)):
                if 0 <= address < 2**64:
                    writes[address] = chosen.randrange(256)
        return writes

    def damaged(self, string):
        chosen, string = self.random, bytearray(string)
        for _ in range(chosen.choice([0, 0, 1, 1, 2])):
            kind, index = chosen.randrange(4), chosen.randrange(len(string)) if string else 0
            if kind == 0 and string:
                string[index] = chosen.randrange(256)
            elif kind == 1:
                del string[index:]
            elif kind == 2:
                string.insert(index, chosen.randrange(256))
            else:
                string += chosen.randbytes(chosen.randrange(1, 5))
        return bytes(string)

    def test_patches(self):
        counts = dict.fromkeys([Verdict.DONE, Verdict.BAD_PATCH, Verdict.OUTSIDE], 0)
        for _ in range(2000):
            length = self.random.choice([0, 1, 8, 100, 3000, LARGEST_WINDOW])
            base = self.random.choice([0, 0x1000, 2**64 - max(length, 1), self.random.randrange(2**63)])
            string = self.damaged(encoding(self.writes(base, length)))
            memory = bytearray(self.random.randbytes(length))
            before, writes = bytes(memory), read(string)
            applied, judged = apply(base, memory, string), judge(string)
            counts[applied.verdict] += 1
            if writes is None:
                self.assertEqual(applied, Applied(Verdict.BAD_PATCH, 0, 0, 0, 0))
                self.assertEqual(judged, Judged(Verdict.BAD_PATCH, judged.acceptable, judged.offset, 0, 0))
                self.assertLessEqual(judged.offset, len(string))
                self.assertEqual(memory, before)
                front = read(string[:judged.offset] + b"PE" + struct.pack("<H", judged.acceptable))
                self.assertEqual(len(runs_of(front)), judged.acceptable)
                continue
            runs = runs_of(writes)
            self.assertEqual(judged, Judged(Verdict.DONE, 0, 0, len(runs), len(writes)))
            after = laid(writes, base, before)
            if after is None:
                first = next(r for r, run in enumerate(runs) if not base <= run[0] <= run[-1] < base + length)
                self.assertEqual(applied, Applied(Verdict.OUTSIDE, first, runs[first][0], 0, 0))
                self.assertEqual(memory, before)
            else:
                self.assertEqual(applied, Applied(Verdict.DONE, 0, 0, len(runs), len(writes)))
                self.assertEqual(memory, after)
        self.assertTrue(all(count >= 100 for count in counts.values()), counts)

    def test_pairs(self):
        counts = dict.fromkeys(["equal", "differ", 0, 1], 0)
        for _ in range(1000):
            sets = [self.writes(0x1000, self.random.choice([8, 100, 3000]))] * 2
            sets[1] = dict(self.random.choice([sets[0], self.writes(0x1000, 100)]))
            for address in self.random.sample(sorted(sets[1]), min(len(sets[1]), self.random.choice([0, 1, 5]))):
                sets[1].update({address: self.random.randrange(256)} if self.random.random() < 0.7 else {address + 1: 7})
            strings = [self.damaged(encoding(one)) if self.random.random() < 0.3 else encoding(one) for one in sets]
            sets, compared = [read(string) for string in strings], compare(*strings)
            if None in sets:
                self.assertEqual(compared, Compared(Verdict.BAD_PATCH, sets.index(None), None))
                counts[compared.string] += 1
                continue
            wanted = [(address, *(one.get(address) for one in sets)) for address in sorted({*sets[0], *sets[1]})]
            wanted = [Difference(*one) for one in wanted if one[1] != one[2]]
            self.assertEqual(compared, Compared(Verdict.DONE, None, wanted))
            self.assertEqual(not wanted, strings[0] == strings[1])
            counts["differ" if wanted else "equal"] += 1
        self.assertTrue(all(count >= 50 for count in counts.values()), counts)

    def machine(self, base, length):
        """A machine whose stores are often near the window, in each class."""
        chosen = self.random
        vb = chosen.choice(LENGTHS)
        machine = Machine(vb=vb, flags=chosen.choice([7, 15, 31, 39, 63, 103, 127]) | chosen.choice([0, Flags.STRICT]))
        machine.z = bytearray(chosen.randbytes(32 * vb))
        near = b"".join(struct.pack("<Q", (base + chosen.randrange(length + 1)) % 2**64) for _ in range(vb))
        small = b"".join(struct.pack("<I", chosen.randrange(length // 8 + 1)) for _ in range(vb))
        wide = b"".join(struct.pack("<Q", chosen.randrange(length // 8 + 1)) for _ in range(vb))
        for r, offsets in enumerate([near, small, wide]):
            machine.z[r * vb:r * vb + vb] = offsets[:vb]
        machine.p = bytearray(chosen.choice([bytes(2 * vb), b"\xff" * (2 * vb), chosen.randbytes(2 * vb)]))
        for g in range(8, 16):
            struct.pack_into("<H", machine.p, g * vb // 8, chosen.randrange(1 << chosen.choice([4, 8, 16])))
        machine.x = [chosen.choice([base, base + length // 2]) % 2**64 for _ in range(31)]
        machine.x[1:4] = [chosen.randrange(8), chosen.randrange(length + 1), chosen.randrange(2**64)]
        machine.sp = (base & ~15 if chosen.random() < 0.5 else base + 1) % 2**64
        return machine

    def word(self):
        """A word with Z0 to Z2 as offsets."""
        chosen = self.random
        word = chosen.choice(BASES)
        class_ = decode(word).store.class_
        word |= chosen.randrange(8) << 10 | chosen.choice([0, 3, 30, 30, 31]) << 5 | chosen.randrange(4)
        if class_ == 12:
            return 0xE4202000 | chosen.choice([31, 31, 3]) << 16 | word & 0x1C00 | word & 3
        if class_ in STRIDED_CLASSES and class_ not in SCALAR:
            return word | chosen.choice([0, 0, 1, 15, 8]) << 16
        return word | chosen.choice([1, 1, 2, 3, 31] if class_ in SCALAR else [1, 2]) << 16

    def other_filling(self, machine, base, length, word, stored, writes):
        """A done store over another filling of its window, in buffers one byte too short and just long enough."""
        filling, string = self.random.randbytes(length), encoding(writes)
        memory, patch = bytearray(filling), bytearray(len(string) - 1)
        self.assertEqual(store(machine, base, memory, word, patch), Stored(Verdict.NO_ROOM, 0, 0, 0, 0, 0, 0))
        self.assertEqual(memory, filling)
        self.assertEqual(patch, bytes(len(string) - 1))
        patch.append(0)
        self.assertEqual(store(machine, base, memory, word, patch), stored)
        self.assertEqual(patch, string)
        applied = bytearray(filling)
        self.assertEqual(apply(base, applied, string), Applied(Verdict.DONE, 0, 0, len(runs_of(writes)), len(writes)))
        self.assertEqual(applied, memory)

    def test_stores(self):
        counts = dict.fromkeys(list(Verdict)[:10], 0)
        classes = dict.fromkeys(range(1, 37), 0)
        for _ in range(4500):
            length = self.random.choice([0, 64, 3000, 3000, LARGEST_WINDOW])
            base = self.random.choice([0x10000, 0x10000, 2**64 - max(length, 1)])
            machine, word = self.machine(base, length), self.word()
            memory, patch = bytearray(self.random.randbytes(length)), bytearray(b"\x77" * LARGEST_PATCH)
            before, count = bytes(memory), element(machine, word, 0).elements
            active = [(e, one) for e in range(count) for one in [element(machine, word, e)] if one.active]
            writes, moved = {}, 0
            for _, one in active:
                for k in range(one.bytes):
                    writes[one.address + k] = machine.z[one.index + k]
                    moved += 1
            stored = store(machine, base, memory, word, patch)
            counts[stored.verdict] += 1
            if stored.done:
                if machine.flags & Flags.STRICT:
                    self.assertEqual(moved, len(writes))
                classes[decode(word).store.class_] += bool(active)
                string = encoding(writes)
                ends = [None] + [one.address + one.bytes for _, one in active]
                steps = sum(one.address != end for (_, one), end in zip(active, ends))
                self.assertEqual(stored, Stored(Verdict.DONE, 0, 0, len(active), moved, len(string), steps))
                self.assertEqual(memory, laid(writes, base, before))
                self.assertEqual(patch, string + b"\x77" * (LARGEST_PATCH - len(string)))
                self.other_filling(machine, base, length, word, stored, writes)
                continue
            self.assertEqual(memory, before)
            self.assertEqual(patch, b"\x77" * LARGEST_PATCH)
            self.assertEqual((stored.elements, stored.bytes, stored.length, stored.steps), (0, 0, 0, 0))
            if stored.verdict is Verdict.FAULT:
                bytes_ = ((e, (one.address + k) % 2**64) for e, one in active for k in range(one.bytes))
                outside = next((e, address) for e, address in bytes_ if not base <= address < base + length)
                self.assertEqual(outside, (stored.element, stored.address))
            elif stored.verdict is Verdict.OVERLAP:
                self.assertTrue(machine.flags & Flags.STRICT)
                seen = {}
                for e, one in active:
                    for k in range(one.bytes):
                        seen.setdefault(one.address + k, []).append(e)
                lowest = min(elements[1] for elements in seen.values() if len(elements) > 1)
                self.assertEqual((lowest, dict(active)[lowest].address), (stored.element, stored.address))
            else:
                self.assertEqual((stored.element, stored.address), (0, 0))
        for verdict in [Verdict.DONE, Verdict.ILLEGAL, Verdict.STACK, Verdict.FAULT, Verdict.OVERLAP]:
            self.assertGreaterEqual(counts[verdict], 20, counts)
        self.assertTrue(all(count >= 5 for count in classes.values()), classes)


class Declarations(unittest.TestCase):
    """The declarations of the header, the Rust crate and this module say what the proved source says."""

    ROOT = pathlib.Path(__file__).resolve().parents[2]
    NUMBERS = {"u32": ("uint32_t", ctypes.c_uint32), "u64": ("uint64_t", ctypes.c_uint64), "usize": ("size_t", ctypes.c_size_t)}

    def parameters(self, name, kind):
        """A parameter of the source as text in C, and as types of ctypes."""
        reference = re.fullmatch(r"&(mut )?\[(\w+)(?:; (\d+))?\]", kind)
        if not reference:
            number, type_ = self.NUMBERS[kind]
            return [f"{number} {name}"], [type_]
        mutable, entry, count = reference.groups()
        const = "" if mutable else "const "
        if count:
            number, type_ = self.NUMBERS[entry]
            return [f"{const}{number} {name}[{count}]"], [type_ * int(count)]
        entry = {"u8": "uint8_t", "u64": "uint64_t"}[entry]
        return [f"{const}{entry} *{name}", f"size_t {name}_len"], [ctypes.c_void_p, ctypes.c_size_t]

    def source(self):
        """The functions of the source, with names and types of their parameters."""
        text = "\n".join(path.read_text(encoding="utf-8") for path in sorted(self.ROOT.glob("crates/starshackle/src/*.rt")))
        functions = {}
        for function, listed in re.findall(r'extern "C" fn (\w+)\(([^)]*)\) -> u64', text):
            functions[function] = [part.strip().split(": ", 1) for part in listed.split(",") if part.strip()]
        self.assertEqual(text.count('extern "C"'), len(functions))
        self.assertEqual(len(functions), 7)
        return functions

    def test_declarations(self):
        header = (self.ROOT / "include/starshackle.h").read_text(encoding="utf-8")
        wanted, types = {}, {}
        for function, listed in self.source().items():
            pairs = [self.parameters(*parameter) for parameter in listed]
            wanted[function] = ", ".join(text for texts, _ in pairs for text in texts)
            types[function] = [type_ for _, some in pairs for type_ in some]
        declared = {function: " ".join(listed.split()) for function, listed in re.findall(r"^uint64_t (\w+)\(([^)]*)\);", header, re.M)}
        self.assertEqual(declared, wanted)
        self.assertEqual(_library.PARAMETERS, types)

    def rust(self, name, kind):
        """A parameter of the source as the Rust crate declares it."""
        kind = kind.replace("[u64; 8]", "Fields").replace("[u64; 5]", "Answer").replace("[u64; 6]", "StoreAnswer")
        if not kind.startswith("&"):
            return f"{name}: {kind}"
        pointer = "*mut" if kind.startswith("&mut ") else "*const"
        pointed = kind.replace("&mut ", "").replace("&", "")
        entry = re.fullmatch(r"\[(u8|u64)\]", pointed)
        return f"{name}: {pointer} {entry[1]}, {name}_len: usize" if entry else f"{name}: {pointer} {pointed}"

    def test_rust_declarations(self):
        text = (self.ROOT / "rust/starshackle/src/ffi.rs").read_text(encoding="utf-8")
        found = re.findall(r"^    fn (starshackle_\w+)\(([^)]*)\) -> u64;", text, re.M)
        declared = {function: " ".join(listed.split()).rstrip(",") for function, listed in found}
        wanted = {function: ", ".join(self.rust(*parameter) for parameter in listed) for function, listed in self.source().items()}
        self.assertEqual(declared, wanted)

    def test_numbers(self):
        header = (self.ROOT / "include/starshackle.h").read_text(encoding="utf-8")
        numbers = {name: int(number) for name, number in re.findall(r"^    STARSHACKLE_(\w+) = (\d+)", header, re.M)}
        names = ["LARGEST_STORE_PATCH", "LARGEST_PATCH", "LARGEST_WINDOW", "MOST_DIFFERENCES"]
        here = {name: getattr(starshackle, name) for name in names}
        here.update((name, getattr(starshackle.patches, f"_{name}")) for name in ["ENTRY_NUMBERS", "NOT_WRITTEN"])
        for enum, prefix in [(Verdict, ""), (Flags, "FLAG_"), (Extension, "EXTENSION_")]:
            here.update((prefix + name, int(value)) for name, value in enum.__members__.items())
        here["FLAG_EARLY"] = int(Edition.EARLY)
        others = {name for name in numbers if name.startswith(("CLASS_", "FIELD_"))}
        self.assertEqual(here, {name: number for name, number in numbers.items() if name not in others})


def load_tests(_loader, tests, _pattern):
    """The docstrings' examples too."""
    for path in sorted(pathlib.Path(starshackle.__file__).parent.glob("*.py")):
        module = "starshackle" if path.stem == "__init__" else f"starshackle.{path.stem}"
        tests.addTests(doctest.DocTestSuite(importlib.import_module(module)))
    return tests


if __name__ == "__main__":
    unittest.main()
