"""Values as people have them, for the tests of store files."""

import itertools
import struct

# Assembly texts, right and wrong.
ASSEMBLY = [b"st1d {z1.d}, p0, [x0, z2.d, lsl #3] # x", b"ST1D\t{ Z1.D } , P0 , [ SP , Z2.D , SXTW 3 ]", b"st1q { z2.q }, p1, [z31.d, xzr]",
            b"st1q { z2.q }, p1, [z31.d]#[", b"st1b {z0.b,z8.b},pn8,[x0,#0,mul vl]", b"st1w {z0.s,z8.s},pn8,[sp, # -0X10 ,mul  vl]",
            b"st1h { z3.h, z7.h, z11.h, z15.h }, pn15, [x30, xzr, lsl #0x1]", b"st1b { z5.s }, p7, [x30, z31.s, uxtw]", b"st", b"st1d",
            b"st1d { z0.d, z1.d }, pn8, [x0]", b"st1d { z0.d, z8.d }, pn7, [x0]", b"st1d { z1.d }, p0, [x0, z2.d, lsl #3",
            b"st1d { z0.d, z8.d }, pn8, [x0, #3, mul vl]", b"st1d { z0.d, z8.d }, pn8, [x0, #2]", b"st1d { z1.d }, p0, [x0, z2.d] x",
            b"st1d { z1.d }, p0, [x0, z2.d, lsl ##3]", b"st1d { z01.d }, p0, [x0, z2.d]", "st1d { z\u0661.d }, p0, [x0, z2.d]".encode(),
            "st1d { z1.d }, p0, [x0, z2.d, \u212Asl #3]".encode(), b"st1d z1.d, p0, [x0, z2.d]", b"st1d { z0.d - z3.d }, pn8, [x0]",
            b"st1d { z0.d, z8.d }, pn8, [x0, #" + b"9" * 50 + b", mul vl]", b"st1d { z0.d, z8.d }, pn8, [x0, #--2, mul vl]"]
# Floating-point numbers, in stores that show every byte of the register.
FLOATS = [b"word = st1w { z1.s }, p0, [x0, z2.s, uxtw]\nvb = 16\nflags = sve\nz1.s = " + text + b" ..."
          for text in [b"1.5 -0.25 1e3", b"1", b"1.", b".5", b".", b"e5", b"1e", b"1e+2", b"1e-", b"+1.0", b"0x1.8", b"inf", b"-Infinity",
                       b"nan -NAN", b"nan(0x1) -nan(0x7FFFFF)", b"nan(0x800000)", b"nan(0x0)", b"nan(0x)", b"nan(1)", b"3.4028235e38",
                       b"3.4028236e38", b"1e39", b"-1e99999999999999999999", b"0e99999999999999999999 1e-99999999999999999999",
                       b"16777217.0 16777219.0 16777217.00000000000000000000001", b"1." + b"0" * 9000 + b"1", b"1e" + b"0" * 9000 + b"1",
                       b"9" * 9000 + b"e-8990", b"1_0.0", "\u0661.5".encode(), b"1.5f", b"1..5", b"5000000000", b"infinit", b"0.1 1e-45"]]
# Registers as gdb prints them, right and wrong.
GDB = [b"word = st1q { z1.q }, p0, [z2.d]\nvb = 32\nflags = sve2p1\nz2.d = 0 0 16 0\np0 = {17 <repeats 4 times>}\nlength = 32\n" + text
       for text in [b"x1 0x10 16", b"SP  0xffffffffffffffff\t-1", b"x1 1", b"x1 1 2", b"x1 1 1 1", b"x1 = 1 1", b"x1 = 1 2", b"x1 = x x",
                    b"vb 16 16", b"x31 1 1", b"x1", b"x1 1 x", b"z1.d = {1, 2, 0x3, -4}", b"z1.d={1.5,2,inf,nan(0x1)}",
                    b"z1.d.f = {1, -0, 0x5, 1e3}", b"z1.d.u = {1.5, 0, 0, 0}", b"z1.q.f = {1, 2}", b"z1.d.f.f = 1", b"p1.d.u = {1}",
                    b"z1.d.f = 1 2 ...", b"z1 {b = {u = {0 <repeats 32 times>}}}", b"z1 = {0x1, 2, 3 <repeats 30 times>}",
                    b"z1 = {d = {f = {1,2,3,4}, u = {0x3ff0000000000000...}}}", b"z1.d = {1...}",
                    b"z1 = {d = {u = {1, 0 <repeats 3 times>}}, b = {u = {0 <repeats 32 times>}}}",
                    b"z1 = {\n d = {\n # x\n u = {1,\n2, 3, 4}}\n}", b"z1 = {d = {u = {1, 2, 3, 4}}\nz3 = 1", b"z1 = {d = {x = {1}}}",
                    b"z1 = {x = {1}}", b"z1 = {d = {u = {s = {1}}}}", b"z1 = {}", b"z1.d = {1, 2, 3}", b"z1.d = {1, 2, 3, 4, 5}",
                    b"z1.d = {1, 2, 3, 4,}", b"z1.d = {1 2 3 4}", b"z1.d = {1, 2, 3, 4} 5", b"z1.b = {017 <repeats 32 times>}",
                    b"z1.b = {00 <repeats 32 times>}", b"z1.b = {0 <repeats 32 times>...}", b"z1.d = {1,\n\n",
                    b"z1.b = {0 <repeats 31 times>, 0 <repeats 0 times>, 1}", b"z1.b = {0 <repeats 99999999999999999999 times>}",
                    b"z1.b = {0 <repeats 18446744073709551615 times>, 1}", b"z1.b = {1 <repeats 0x20 times>}",
                    b"z1.b = {1<repeats 32 times>}", b"p1 = {1, 2, 3, 4}", b"p1 = {1, 2, 3, 256}", b"p1 = {u = {1, 2, 3, 4}}",
                    b"p1.s = {1, 0 <repeats 7 times>}", b"p1 = {1, 2...}", b"z1 = {h = {bf = {x}, u = {1 <repeats 16 times>}}}",
                    b"z1 = {h = {bf = {x}}}", b"x1 = {1}", b"x1 {1", b"{", b"}", b"= {}", b"z1 = {, d = {u = {1, 2, 3, 4}}}",
                    b"z1 = {d = {u = {1, 2, 3, 4}} x}", b"z1 = {d = {u = {1, 2, 3, 4}}}}", b"memory = {1}"]]


def in_gdb(register):
    """A register as gdb prints it: its views of each width, with ten alike or more as one."""
    def row(values):
        parts = [f"{value} <repeats {number} times>" if number >= 10 else ", ".join([value] * number)
                 for value, number in ((value, len(list(alike))) for value, alike in itertools.groupby(values))]
        return "{" + ", ".join(parts) + "}"

    def floating(letter, digits):
        size = struct.calcsize(letter)
        bits = [int.from_bytes(register[k:k + size], "little") for k in range(0, len(register), size)]
        fraction = {2: 10, 4: 23, 8: 52}[size]
        nan = [f"{'-' * (one >> 8 * size - 1)}nan({one & (1 << fraction) - 1:#x})" for one in bits]
        values = struct.unpack(f"<{len(register) // size}{letter}", register)
        return row([f"{value:.{digits}g}" if value == value else other for value, other in zip(values, nan)])

    def integers(size, signed):
        return row([str(int.from_bytes(register[k:k + size], "little", signed=signed)) for k in range(0, len(register), size)])

    views = []
    for name, size, letter, digits in [("q", 16, "", 0), ("d", 8, "d", 17), ("s", 4, "f", 9), ("h", 2, "e", 5), ("b", 1, "", 0)]:
        kinds = [f"f = {floating(letter, digits)}"] if letter else []
        views.append(f"{name} = {{{', '.join(kinds + [f'u = {integers(size, False)}', f's = {integers(size, True)}'])}}}")
    return "{" + ", ".join(views) + "}"
