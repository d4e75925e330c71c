//! How a file that describes a store is written.

/// The part of a subcommand's help, a macro because only those are joined with literals.
macro_rules! store_help {
    () => {
        "\
FILE is a text with lines NAME = VALUE. What isn't given is 0; # starts a comment, except in [ ]. A -
for FILE is standard input.

  word = 0xE4428001            the instruction word; E4428001, as `decode` shows it, will do
  word = st1d { z1.d }, p0, [x0, z2.d, lsl #3]
                               or its assembly text, in upper or lower case, with immediates decimal
                               or 0x hexadecimal; the word that is found decodes to that text
  class = 6                    or in its place the fields, by the names that `encode` takes
  vb = 16                      the vector length in bytes
  flags = sve streaming        those that are on: sve, sme2, sve2p1, streaming, fa64, sp-check,
                               sp-check-none-active, strict
  edition = early              the edition of Arm's SVE supplement, early or late; late if not given.
                               vb is 16, 32, 64, 128 or 256; under the early edition, with streaming
                               off, any multiple of 16 from 16 to 256
  x0 = 0x1000                  x0 to x30; `x0 0x1000 4096`, as gdb prints it, will do
  sp = 4096                    the stack pointer
  z2.s = 0 1 -1 0x5            z0 to z31 by elements of a width (b, h, s, d, q), lowest first
  z1.d = 1.5 -0.25 1e-3 inf    in h, s and d a number with a point or an exponent, inf or nan is a
                               floating-point number of that size, rounded to the nearest, of two to
                               the even one; one that is too large is refused. 1 is an integer, 1.0
                               isn't; nan is the default quiet NaN, nan(0x1) one with that fraction
  z2 = 00 11 22 33 ...         or by bytes
  z2 = {d = {f = {1, 2.5}}}    or as gdb prints it, over one line or more: its views q, d, s, h and b,
                               in them f, u and s, or some of these, which all have to agree; h.bf is
                               passed over. In f every number is floating-point, but for 0x and bits
  z2.d.f = {1, 2.5}            or one view by its name
  z2.d = {0x5, 1 <repeats 3 times>}
                               or by a width, each number being what it is without braces
  z2 = {0x5, 1 <repeats 15 times>}
                               or by bytes. The = may be missing, as `info registers` has it. A view
                               that gdb cuts with ... isn't enough alone
  p0.s = 1 0 1 1               p0 to p15 by the bits of a width's elements
  p8 = 0x0018                  or by bytes or as one number; p8 may be called pn8
  p0 = {0x11, 17}              or as gdb prints it, by bytes
  window = 0x1000              the address of the window's first byte
  length = 16                  how many bytes it has
  memory = EE ...              the bytes in it
  memory = @FILE               or a file of them, named from the folder that this file is in; its
                               length is the window's, and that of a line length = N too

Numbers are decimal or 0x and hexadecimal; bytes are hexadecimal, two digits each.
A value is as long as its register or window; ... repeats the last element or byte up to there.

A note names each register that the store reads and FILE doesn't give: being 0, it may leave all
elements inactive, or send them to one address. With --require-registers that is an error, and
nothing is written. A line gives its whole register, be it 0; p0.s gives the bits between those of
its elements as 0. There is no note where there is no store (verdicts 4 and 11).
"
    };
}
