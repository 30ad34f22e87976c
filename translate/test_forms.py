#!/usr/bin/env python3
"""
Each form of MIR by itself, also those that the crates don't have: `test_forms.py COMPILER..` writes a program of MIR with a function for
each, has it translated, compiles it with COMPILER and checks what the functions answer at the ends of their ranges against numbers worked
out here. Then texts that the translator must refuse, with what it has to say.
"""
import itertools
import math
import os
import struct
import subprocess
import sys
import tempfile

sys.path.insert(0, os.path.dirname(os.path.abspath(__file__)))
from mir import Stop  # noqa: E402
from mir_to_c import File  # noqa: E402


def chain(kind, texts):
    made = f"{kind}nil"
    for text in reversed(list(texts)):
        made = f"({kind}cons {text} {made})"
    return made


def place(k, *steps):
    return f"(place {k} {chain('l', steps)})"


def copy(k, *steps):
    return f"(copy {place(k, *steps)})"


def put(k, rvalue, *steps):
    return f"(assign {place(k, *steps)} {rvalue})"


def opd(x):
    return f"(rvOpd {x})"


def u(width, value):
    return f"(int {width} {value})"


def seq(*statements):
    *first, last = statements
    for statement in reversed(first):
        last = f"(seq {statement} {last})"
    return last


def function(path, params, locals_, body, types=""):
    return f'(fn-def "forms::{path}" (fnItem 0 lnil {params} {chain("l", [f"(local {t} valueLocal)" for t in locals_])} {body}){types})'


def call(path, arguments, target):
    return f'(call (direct (fnRef "forms::{path}")) {chain("l", arguments)} {target})'


U8, U16, U32, U64, BOOL, F32, F64 = "(tyInt 8)", "(tyInt 16)", "(tyInt 32)", "(tyInt 64)", "tyBool", "(tyFloat 32)", "(tyFloat 64)"
PAIR, ENUM, EMPTY = (f'(tyNamed (pair "forms::{name}" lnil))' for name in ("Pair", "Enum", "Empty"))
SLICE = f'(tyStruct "&[]" (tcons (tyRef erased mut {U32}) (tcons {U64} tnil)))'


def declared(*more):
    """These types, and those of some functions alone."""
    return " " + chain("l", [f'(pair "forms::Pair" (fields {chain("t", [U8, "tyUnit", U64])}))', '(pair "forms::Empty" (fields tnil))',
                             f'(pair "forms::Enum" (variants {chain("tt", ["tnil", chain("t", [U32]), chain("t", [U8, U64])])}))', *more])


TYPES = declared()
functions, checks = [], []


def check(name, arguments, due):
    checks.append((name, arguments, due))


# ---- operations on numbers

def signed(width, x):
    return x - (1 << width) if x >> (width - 1) else x


def ends(width):
    half, whole = 1 << (width - 1), 1 << width
    return [0, 1, 2, 3, 7, width - 1, half - 1, half, half + 1, whole - 2, whole - 1, 0xA5A5A5A5A5A5A5A5 % whole]


def quotient(a, b):
    return abs(a) // abs(b) * (1 if (a < 0) == (b < 0) else -1)


def fits(width, sign, z):
    return 0 <= z < 1 << width if sign == "unsigned" else -(1 << (width - 1)) <= z < 1 << (width - 1)


def binary(word, sign, width, a, b):
    """What the logic gives an operation, as bits, or None where it gives nothing."""
    x, y = (a, b) if sign != "signed" else (signed(width, a), signed(width, b))
    if word in ("div", "rem") and (b == 0 or not fits(width, sign, quotient(x, y))):
        return None
    if word in ("shl", "shr") and b >= width:
        return None
    z = {"add": lambda: x + y, "sub": lambda: x - y, "mul": lambda: x * y, "wrapAdd": lambda: a + b, "wrapSub": lambda: a - b,
         "wrapMul": lambda: a * b, "div": lambda: quotient(x, y),
         "rem": lambda: x - y * quotient(x, y), "shr": lambda: x >> b, "lt": lambda: int(x < y), "le": lambda: int(x <= y),
         "and": lambda: a & b, "or": lambda: a | b,
         "xor": lambda: a ^ b, "shl": lambda: (a << b) % (1 << width), "eq": lambda: int(a == b), "ne": lambda: int(a != b)}[word]()
    return z % (1 << width) if word not in ("add", "sub", "mul") or fits(width, sign, z) else None


def binaries(width):
    t = f"(tyInt {width})"
    signs = [(word, sign) for word in ("add", "sub", "mul", "div", "rem", "shr", "lt", "le") for sign in ("unsigned", "signed")]
    for word, sign in signs + [(word, None) for word in ("and", "or", "xor", "shl", "eq", "ne", "wrapAdd", "wrapSub", "wrapMul")]:
        name = f"{word}_{sign or 'bits'}_{width}"
        op = f"({word} {sign})" if sign else word
        result = BOOL if word in ("lt", "le", "eq", "ne") else t
        functions.append(function(name, 2, [result, t, t], seq(put(0, f"(op2 {op} {copy(1)} {copy(2)})"), "return")))
        for a in ends(width):
            for b in ends(width):
                due = binary(word, sign, width, a, b)
                if due is not None:
                    check(name, (a, b), due)


def unaries(width):
    t = f"(tyInt {width})"
    forms = {"not": (t, lambda a: (1 << width) - 1 - a), "leadingZeros": (U32, lambda a: width - a.bit_length()),
             "trailingZeros": (U32, lambda a: (a & -a).bit_length() - 1 if a else width), "countOnes": (U32, lambda a: bin(a).count("1"))}
    for word, (result, value) in forms.items():
        functions.append(function(f"{word}_{width}", 1, [result, t], seq(put(0, f"(op1 {word} {copy(1)})"), "return")))
        for a in ends(width):
            check(f"{word}_{width}", (a,), value(a))


def casts(width):
    for to, sign, to_sign in itertools.product((8, 16, 32, 64), ("unsigned", "signed"), ("unsigned", "signed")):
        name = f"cast_{sign}_{width}_{to_sign}_{to}"
        functions.append(function(name, 1, [f"(tyInt {to})", f"(tyInt {width})"],
                                  seq(put(0, f"(op1 (cast {sign} {to_sign} {to}) {copy(1)})"), "return")))
        for a in ends(width) + ends(to):
            z = signed(width, a % (1 << width)) if sign == "signed" else a % (1 << width)
            if fits(to, to_sign, z):
                check(name, (a % (1 << width),), z % (1 << to))


def bools():
    for word, value in (("and", lambda a, b: a & b), ("or", lambda a, b: a | b), ("xor", lambda a, b: a ^ b), ("eq", lambda a, b: a == b),
                        ("ne", lambda a, b: a != b)):
        body = seq(put(3, f"(op2 ne {copy(1)} {u(8, 0)})"), put(4, f"(op2 ne {copy(2)} {u(8, 0)})"), put(3, f"(op1 not {copy(3)})"),
                   put(4, f"(op1 not {copy(4)})"), put(5, f"(op2 {word} {copy(3)} {copy(4)})"),
                   put(0, f"(op1 (cast unsigned unsigned 32) {copy(5)})"), "return")
        functions.append(function(f"bool_{word}", 2, [U32, U8, U8, BOOL, BOOL, BOOL], body))
        for a in (0, 1, 128):
            for b in (0, 1, 255):
                check(f"bool_{word}", (a, b), int(value(not a, not b)))


# ---- floats

INF = float("inf")
FORMATS = ((32, F32), (64, F64))


def bits(w, x):
    """The bits of x rounded to the format, which Python's own floats of 64 bits leave to be done for 32."""
    try:
        return int.from_bytes(struct.pack({32: "<f", 64: "<d"}[w], x), "little")
    except OverflowError:
        return bits(w, math.copysign(INF, x))


def from_bits(w, x):
    return struct.unpack({32: "<f", 64: "<d"}[w], x.to_bytes(w // 8, "little"))[0]


def floats_of(w):
    """Among them the ends: both infinities, the greatest, the least normal, the greatest and the least subnormal."""
    infinite, least_normal = bits(w, INF), 1 << {32: 23, 64: 52}[w]
    last = [from_bits(w, x) for x in (infinite - 1, least_normal, least_normal - 1, 1)]
    return [0.0, -0.0, 1.0, -1.5, 0.75, 1e10, 3.0, INF, -INF, *last, -last[0], -last[3]]


def divided(a, b):
    """IEEE 754's, also by zero, where Python has none."""
    if b:
        return a / b
    return math.copysign(INF, math.copysign(1, a) * math.copysign(1, b)) if a and not math.isnan(a) else math.nan


ARITHMETIC = {"floatAdd": lambda a, b: a + b, "floatSub": lambda a, b: a - b, "floatMul": lambda a, b: a * b, "floatDiv": divided}
COMPARISONS = {"floatEq": lambda a, b: a == b, "floatNe": lambda a, b: a != b, "floatLt": lambda a, b: a < b,
               "floatLe": lambda a, b: a <= b}


def float_arithmetic(w, t):
    """The bits of each result, but for no number, which has none in the logic: whether it is equal to itself."""
    number, read = f"(tyInt {w})", [put(3, f"(op1 (floatFromBits {w}) {copy(1)})"), put(4, f"(op1 (floatFromBits {w}) {copy(2)})")]
    for word, value in ARITHMETIC.items():
        made = [*read, put(3, f"(op2 {word} {copy(3)} {copy(4)})")]
        functions.append(function(f"{word}_{w}", 2, [number, number, number, t, t],
                                  seq(*made, put(0, f"(op1 floatToBits {copy(3)})"), "return")))
        functions.append(function(f"{word}_{w}_is_one", 2, [BOOL, number, number, t, t],
                                  seq(*made, put(0, f"(op2 floatEq {copy(3)} {copy(3)})"), "return")))
        for a, b in itertools.product(floats_of(w), repeat=2):
            due, arguments = value(a, b), (bits(w, a), bits(w, b))
            check(f"{word}_{w}_is_one", arguments, int(not math.isnan(due)))
            if not math.isnan(due):
                check(f"{word}_{w}", arguments, bits(w, due))


def float_comparisons(w, t):
    """Of sums, so that no number is among what is compared: it is the sum of two infinities."""
    number = f"(tyInt {w})"
    read = [put(4 + k, f"(op1 (floatFromBits {w}) {copy(k)})") for k in (1, 2, 3)]
    sums = [(a, 0.0) for a in floats_of(w) if a] + [(-0.0, -0.0), (0.0, 0.0), (INF, -INF)]
    for word, value in COMPARISONS.items():
        for name, x, y in ((f"{word}_{w}", 8, 7), (f"{word}_{w}_back", 7, 8)):
            body = seq(*read, put(8, f"(op2 floatAdd {copy(5)} {copy(6)})"), put(0, f"(op2 {word} {copy(x)} {copy(y)})"), "return")
            functions.append(function(name, 3, [BOOL, number, number, number, BOOL, t, t, t, t], body))
        functions.append(function(f"{word}_{w}_itself", 3, [BOOL, number, number, number, BOOL, t, t, t, t], seq(
            *read, put(8, f"(op2 floatAdd {copy(5)} {copy(6)})"), put(0, f"(op2 {word} {copy(8)} {copy(8)})"), "return")))
        for (a, b), c in itertools.product(sums, floats_of(w)):
            arguments = tuple(bits(w, x) for x in (a, b, c))
            check(f"{word}_{w}", arguments, int(value(a + b, c)))
            check(f"{word}_{w}_back", arguments, int(value(c, a + b)))
            check(f"{word}_{w}_itself", arguments, int(value(a + b, a + b)))


def float_formats(w, t):
    number = f"(tyInt {w})"
    functions.append(function(f"floatNeg_{w}", 1, [number, number, t], seq(
        put(2, f"(op1 (floatFromBits {w}) {copy(1)})"), put(2, f"(op1 floatNeg {copy(2)})"), put(0, f"(op1 floatToBits {copy(2)})"),
        "return")))
    for to, other in FORMATS:
        functions.append(function(f"floatToFloat_{w}_{to}", 1, [f"(tyInt {to})", number, t, other], seq(
            put(2, f"(op1 (floatFromBits {w}) {copy(1)})"), put(3, f"(op1 (floatToFloat {to}) {copy(2)})"),
            put(0, f"(op1 floatToBits {copy(3)})"), "return")))
    for a in floats_of(w):
        check(f"floatNeg_{w}", (bits(w, a),), bits(w, -a))
        for to, _ in FORMATS:
            if from_bits(to, bits(to, a)) == a:
                check(f"floatToFloat_{w}_{to}", (bits(w, a),), bits(to, a))


def float_integers(w, t, width, sign):
    """Both ways, among the whole numbers of which the format has each: the logic gives others no meaning."""
    number, most = f"(tyInt {width})", 1 << {32: 24, 64: 53}[w]
    there, back = f"intToFloat_{sign}_{width}_{w}", f"floatToInt_{sign}_{w}_{width}"
    functions.append(function(there, 1, [f"(tyInt {w})", number, t], seq(
        put(2, f"(op1 (intToFloat {sign} {w}) {copy(1)})"), put(0, f"(op1 floatToBits {copy(2)})"), "return")))
    functions.append(function(back, 1, [number, f"(tyInt {w})", t], seq(
        put(2, f"(op1 (floatFromBits {w}) {copy(1)})"), put(0, f"(op1 (floatToInt {sign} {width}) {copy(2)})"), "return")))
    for a in ends(width) + [x % (1 << width) for x in (most, most - 1, 1 - most, -most)]:
        z = signed(width, a) if sign == "signed" else a
        if abs(z) <= most:
            check(there, (a,), bits(w, float(z)))
            check(back, (bits(w, float(z)),), a)


def floats():
    for w, t in FORMATS:
        float_arithmetic(w, t)
        float_comparisons(w, t)
        float_formats(w, t)
        for width, sign in itertools.product((8, 16, 32, 64), ("unsigned", "signed")):
            float_integers(w, t, width, sign)
        for k, x in enumerate((0.1, INF, -0.0)):
            functions.append(function(f"constant_{w}_{k}", 0, [f"(tyInt {w})", t], seq(
                put(1, opd(f"(float {w} {bits(w, x)})")), put(0, f"(op1 floatToBits {copy(1)})"), "return")))
            check(f"constant_{w}_{k}", (), bits(w, x))


# ---- statements, places and aggregates

def plus(k, other):
    return put(k, f"(op2 (add unsigned) {copy(k)} {other})")


def statements():
    arms = (f"(arm (lcons 1 (lcons 7 lnil)) {put(0, opd(u(32, 10)))} (arm (lcons 2 lnil) {seq(put(0, opd(u(32, 20))), 'return')} "
            f"(arm (lcons 3 lnil) (exit 0) (default {put(0, opd(u(32, 40)))}))))")
    functions.append(function("arms", 1, [U32, U32], seq(
        put(0, opd(u(32, 5))), f"(block (seq (switch {copy(1)} {arms}) {plus(0, u(32, 1))}))", plus(0, u(32, 100)), "return")))
    for a, due in ((1, 111), (7, 111), (2, 20), (3, 105), (4, 141)):
        check("arms", (a,), due)
    # Odd numbers below x are summed: exit 0 in the loop is the next turn; exit 1 leaves; exit 2, from within a block, leaves too.
    turn = seq(put(3, f"(op2 (lt unsigned) {copy(2)} {copy(1)})"), f"(if {copy(3)} skip (exit 1))", plus(2, u(32, 1)),
               put(4, f"(op2 and {copy(2)} {u(32, 1)})"), put(3, f"(op2 eq {copy(4)} {u(32, 0)})"), f"(if {copy(3)} (exit 0) skip)",
               plus(0, copy(2)), put(3, f"(op2 eq {copy(0)} {u(32, 100)})"), f"(block (if {copy(3)} (exit 2) (exit 0)))")
    functions.append(function("odd", 1, [U32, U32, U32, BOOL, U32], seq(put(0, opd(u(32, 0))), put(2, opd(u(32, 0))),
                                                                      f"(block (loop {turn}))", plus(0, u(32, 1000)), "return")))
    for a, due in ((0, 1000), (5, 1009), (6, 1009), (99, 1100)):
        check("odd", (a,), due)
    functions.append(function("nested", 1, [U32, U32, BOOL], seq(
        put(0, opd(u(32, 0))), put(2, f"(op2 (lt unsigned) {copy(1)} {u(32, 5)})"),
        f"(block (seq (block (if {copy(2)} (exit 0) (exit 1))) {plus(0, u(32, 1))}))", plus(0, u(32, 2)), "return")))
    check("nested", (4,), 3)
    check("nested", (5,), 2)


def places():
    field = "(field {})".format
    functions.append(function("swapped", 2, [U64, U8, U64, PAIR, PAIR, U64, "tyUnit"], seq(
        put(3, f"(aggregate {chain('l', [copy(1), 'unit', copy(2)])})"), put(4, opd(copy(3))), put(6, opd("unit")),
        put(5, f"(op1 (cast unsigned unsigned 64) {copy(4, field(0))})"),
        put(4, f"(aggregate {chain('l', [u(8, 9), copy(6), copy(5)])})"),
        put(0, f"(op2 (sub unsigned) {copy(3, field(2))} {copy(4, field(2))})"), "return"), TYPES))
    check("swapped", (3, 1000), 997)
    functions.append(function("self", 2, [U64, U64, U64, "(tyArray (tyInt 64) (lenLit 2))", "tyPtr", "tyPtr"], seq(
        put(3, f"(aggregate {chain('l', [copy(1), copy(2)])})"), put(4, f"(addrOf {place(3)})"),
        put(5, f"(op2 offset {copy(4)} {u(64, 8)})"),
        put(3, f"(aggregate {chain('l', [copy(5, f'(deref {U64})'), copy(4, f'(deref {U64})')])})"),
        put(0, opd(copy(5, f"(deref {U64})"))), "return")))
    check("self", (17, 4), 17)
    through = f"(deref {PAIR})"
    functions.append(function("pointed", 2, [U64, U8, U64, PAIR, f"(tyRef erased mut {U64})", f"(tyRef erased mut {PAIR})"], seq(
        put(3, f"(aggregate {chain('l', [copy(1), 'unit', copy(2)])})"), put(5, f"(addrOf {place(3)})"),
        put(4, f"(addrOf {place(5, through, field(2))})"), put(5, opd(u(64, 6)), through, field(2)),
        put(0, opd(copy(4, f"(deref {U64})"))), put(4, f"(addrOf {place(3, field(2))})"), put(4, opd(copy(2)), f"(deref {U64})"),
        put(0, f"(op2 (add unsigned) {copy(0)} {copy(5, through, field(2))})"), "return"), TYPES))
    check("pointed", (3, 1000), 1006)
    tag = chain("l", [u(8, 2), copy(1), copy(2)])
    functions.append(function("made", 2, [ENUM, U8, U64], seq(put(0, f"(aggregate {tag})"), "return"), TYPES))
    one = f"(aggregate {chain('l', [u(8, 1), u(32, 77)])})"
    first = put(0, f"(op1 (cast unsigned unsigned 64) {copy(3, '(variant 1)', field(1))})")
    second = put(0, opd(copy(3, "(variant 2)", field(2))))
    arms = f"(arm (lcons 0 lnil) {put(0, opd(u(64, 1)))} (arm (lcons 1 lnil) {first} (arm (lcons 2 lnil) {second} noDefault)))"
    body = seq(put(4, f"(op2 (lt unsigned) {copy(1)} {u(8, 2)})"),
               f"(if {copy(4)} {call('made', [copy(1), copy(2)], place(3))} (if {copy(4)} skip {put(3, one)}))",
               f"(switch {copy(3, '(variant 0)', field(0))} {arms})", "return")
    functions.append(function("matched", 2, [U64, U8, U64, ENUM, BOOL], body, TYPES))
    check("matched", (1, 123456789012), 123456789012)
    check("matched", (2, 5), 77)


def memory():
    array = "(tyArray (tyInt 32) (lenLit 5))"
    third = seq(put(3, f"(addrOf {place(2)})"), put(4, f"(op2 offset {copy(3)} {u(64, 8)})"))
    functions.append(function("store", 2, ["tyUnit", SLICE, U32, "tyPtr", U64], seq(
        put(4, opd(copy(1, "(field 1)"))), put(4, f"(op2 (sub unsigned) {copy(4)} {u(64, 1)})"),
        put(4, f"(op2 (mul unsigned) {copy(4)} {u(64, 4)})"), put(3, f"(op2 offset {copy(1, '(field 0)')} {copy(4)})"),
        put(3, opd(copy(2)), f"(deref {U32})"), put(0, opd("unit")), "return")))
    functions.append(function("double", 1, [U32, U32], seq(put(0, f"(op2 (add unsigned) {copy(1)} {copy(1)})"), "return")))
    functions.append(function("stored", 1, [U32, U32, array, "tyPtr", "tyPtr", SLICE, "tyUnit", U32], seq(
        put(2, f"(repeat {u(32, 6)} 5)"), third, put(5, f"(aggregate {chain('l', [copy(3), u(64, 3)])})"),
        call("store", [copy(5), copy(1)], place(6)), put(7, opd(copy(4, f"(deref {U32})"))),
        call("double", [copy(7)], place(4, f"(deref {U32})")),
        put(3, f"(op2 offset {copy(3)} {u(64, 16)})"), put(7, opd(copy(3, f"(deref {U32})"))), put(0, opd(copy(4, f"(deref {U32})"))),
        plus(0, copy(7)), "return")))
    check("stored", (50,), 106)
    functions.append(function("empty", 0, [U32, EMPTY, EMPTY, "(tyArray (tyInt 8) (lenLit 0))", "tyPtr", "tyPtr"], seq(
        put(1, "(aggregate lnil)"), put(2, opd(copy(1))), put(3, "(aggregate lnil)"), put(4, f"(addrOf {place(3)})"),
        put(3, f"(repeat {u(8, 1)} 0)"), put(5, f"(addrOf {place(4, f'(deref {U8})')})"), put(0, opd(u(32, 4))), "return"), TYPES))
    check("empty", (), 4)


def arrays():
    """Three arrays of two numbers: made of parts or of constants, or one repeated; the whole or a part read at its address."""
    inner, outer = "(tyArray (tyInt 16) (lenLit 2))", "(tyArray (tyArray (tyInt 16) (lenLit 2)) (lenLit 3))"
    constant = put(5, f"(aggregate {chain('l', [u(16, 0), u(16, 65535)])})")
    read = [put(7, f"(op2 (mul unsigned) {copy(3)} {u(64, 4)})"), put(6, f"(op2 offset {copy(6)} {copy(7)})"),
            put(5, opd(copy(6, f"(deref {inner})"))), put(6, f"(addrOf {place(5)})"), put(7, f"(op2 (mul unsigned) {copy(4)} {u(64, 2)})"),
            put(6, f"(op2 offset {copy(6)} {copy(7)})"), put(0, opd(copy(6, f"(deref {U16})"))), "return"]
    locals_ = [U16, U16, U16, U64, U64, inner, "tyPtr", U64, outer, inner]
    pair = put(9, f"(aggregate {chain('l', [copy(1), copy(2)])})")
    functions.append(function("of_parts", 4, locals_, seq(constant, pair, put(8, f"(aggregate {chain('l', [copy(9), copy(5), copy(9)])})"),
                                                          put(6, f"(addrOf {place(8)})"), *read)))
    functions.append(function("repeated", 4, locals_, seq(pair, put(8, f"(repeat {copy(9)} 3)"), put(6, f"(addrOf {place(8)})"), *read)))
    for i, k in itertools.product(range(3), range(2)):
        check("of_parts", (7, 40000, i, k), ((7, 40000), (0, 65535), (7, 40000))[i][k])
        check("repeated", (7, 40000, i, k), (7, 40000)[k])
    for width in (8, 16, 32, 64):
        t, elements = f"(tyInt {width})", ends(width)
        functions.append(function(f"constants_{width}", 1, [t, U64, f"(tyArray {t} (lenLit {len(elements)}))", "tyPtr", U64], seq(
            put(2, f"(aggregate {chain('l', [u(width, x) for x in elements])})"), put(3, f"(addrOf {place(2)})"),
            put(4, f"(op2 (mul unsigned) {copy(1)} {u(64, width // 8)})"), put(3, f"(op2 offset {copy(3)} {copy(4)})"),
            put(0, opd(copy(3, f"(deref {t})"))), "return")))
        lent = f"(lendStatic {place(3)} (tyArray {t} (lenLit {len(elements)})) (ints {width} {chain('l', map(str, elements))}))"
        functions.append(function(f"lent_{width}", 1, [t, U64, "tyPtr", "tyPtr", U64, "tyPtr"], seq(
            lent, put(4, f"(op2 (mul unsigned) {copy(1)} {u(64, width // 8)})"), put(5, f"(op2 offset {copy(3)} {copy(4)})"),
            f"(lendStatic {place(2)} (tyArray {t} (lenLit 0)) (ints {width} lnil))", put(0, opd(copy(5, f"(deref {t})"))), "return")))
        for i, x in enumerate(elements):
            check(f"constants_{width}", (i,), x)
            check(f"lent_{width}", (i,), x)


def elements():
    """A struct and an enum in arrays, of parts and repeated, each read over the bytes that the logic gives it."""
    some = '(tyNamed (pair "forms::Some" lnil))'
    types = declared(f'(pair "forms::Some" (variants {chain("tt", ["tnil", chain("t", [U32])])}))')
    functions.append(function("structs", 2, [U64, U64, U64, PAIR, f"(tyArray {PAIR} (lenLit 3))", "tyPtr", "tyPtr", PAIR], seq(
        put(3, f"(aggregate {chain('l', [u(8, 1), 'unit', copy(1)])})"), put(7, f"(aggregate {chain('l', [u(8, 2), 'unit', u(64, 99)])})"),
        put(4, f"(aggregate {chain('l', [copy(3), copy(7), copy(3)])})"), put(5, f"(addrOf {place(4)})"),
        put(0, f"(op2 (mul unsigned) {copy(2)} (sizeOf {PAIR}))"), put(6, f"(op2 offset {copy(5)} {copy(0)})"),
        put(0, opd(copy(6, f"(deref {PAIR})", "(field 2)"))), "return"), types))
    for i, x in enumerate((1 << 40, 99, 1 << 40)):
        check("structs", (1 << 40, i), x)
    some_at = copy(7, f"(deref {some})", "(variant 1)", "(field 1)")
    arms = f"(arm (lcons 0 lnil) {put(0, opd(u(32, 5)))} (arm (lcons 1 lnil) {put(0, opd(some_at))} noDefault))"
    functions.append(function("enums", 3, [U32, U32, U64, U64, some, f"(tyArray {some} (lenLit 4))", "tyPtr", "tyPtr", U64], seq(
        put(4, f"(aggregate {chain('l', [u(8, 0)])})"), put(5, f"(repeat {copy(4)} 4)"), put(6, f"(addrOf {place(5)})"),
        put(8, f"(op2 (mul unsigned) {copy(2)} {u(64, 8)})"), put(7, f"(op2 offset {copy(6)} {copy(8)})"),
        put(7, f"(aggregate {chain('l', [u(8, 1), copy(1)])})", f"(deref {some})"),
        put(8, f"(op2 (mul unsigned) {copy(3)} (sizeOf {some}))"), put(7, f"(op2 offset {copy(6)} {copy(8)})"),
        f"(switch {copy(7, f'(deref {some})', '(variant 0)', '(field 0)')} {arms})", "return"), types))
    for i, k in itertools.product(range(4), repeat=2):
        check("enums", (77, i, k), 77 if i == k else 5)


def constants():
    """Those that are lent and have parts: a struct with a unit within; an enum at each of its tags; an array of arrays."""
    pair, enums = f"(parts {chain('l', [u(8, 200), 'unit', u(64, 1 << 40)])})", [[], [u(32, 77)], [u(8, 9), u(64, 1 << 50)]]
    functions.append(function("lent_pair", 0, [U64, "tyPtr", U64], seq(
        f"(lendStatic {place(1)} {PAIR} {pair})", put(2, f"(op1 (cast unsigned unsigned 64) {copy(1, f'(deref {PAIR})', '(field 0)')})"),
        put(0, f"(op2 (add unsigned) {copy(2)} {copy(1, f'(deref {PAIR})', '(field 2)')})"), "return"), TYPES))
    check("lent_pair", (), 200 + (1 << 40))
    for k, fields in enumerate(enums):
        read = copy(1, f"(deref {ENUM})", f"(variant {k})", f"(field {k})")
        last = f"(op1 (cast unsigned unsigned 64) {read})" if k else opd(u(64, 5))
        functions.append(function(f"lent_enum_{k}", 0, [U64, "tyPtr", U64], seq(
            f"(lendStatic {place(1)} {ENUM} (parts {chain('l', [u(8, k), *fields])}))", put(2, last),
            put(0, f"(op1 (cast unsigned unsigned 64) {copy(1, f'(deref {ENUM})', '(variant 0)', '(field 0)')})"),
            plus(0, copy(2)), "return"), TYPES))
        check(f"lent_enum_{k}", (), k + (5, 77, 1 << 50)[k])
    rows = chain("l", [f"(ints 16 {chain('l', map(str, row))})" for row in ((1, 2), (65535, 4), (5, 6))])
    functions.append(function("lent_rows", 1, [U16, U64, "tyPtr", U64], seq(
        f"(lendStatic {place(2)} (tyArray (tyArray {U16} (lenLit 2)) (lenLit 3)) (parts {rows}))",
        put(3, f"(op2 (mul unsigned) {copy(1)} {u(64, 2)})"), put(2, f"(op2 offset {copy(2)} {copy(3)})"),
        put(0, opd(copy(2, f"(deref {U16})"))), "return")))
    for i, x in enumerate((1, 2, 65535, 4, 5, 6)):
        check("lent_rows", (i,), x)
    bits = chain("l", ["true", "false", "true"])
    functions.append(function("lent_bools", 1, [BOOL, U64, "tyPtr"], seq(
        f"(lendStatic {place(2)} (tyArray {BOOL} (lenLit 3)) (parts {bits}))", put(2, f"(op2 offset {copy(2)} {copy(1)})"),
        put(0, opd(copy(2, f"(deref {BOOL})"))), "return")))
    for i, x in enumerate((1, 0, 1)):
        check("lent_bools", (i,), x)


def instances():
    """One generic type and one generic function at some types, of which two have one last name, and one is nothing in C."""
    def one(path):
        return f'(tyNamed (pair "{path}" lnil))'
    # The type, what is made of the parameter, what is read of the field, and its width.
    kept = {"u8": (U8, opd(copy(1)), [], 8), "u64": (U64, opd(copy(1)), [], 64), "unit": ("tyUnit", opd("unit"), None, 64),
            "forms::One": (one("forms::One"), f"(aggregate {chain('l', [copy(1)])})", ["(field 0)"], 8),
            "forms::b::One": (one("forms::b::One"), f"(aggregate {chain('l', [copy(1)])})", ["(field 0)"], 64),
            "mut_ref<u64>": (f"(tyRef erased mut {U64})", f"(addrOf {place(1)})", [f"(deref {U64})"], 64)}
    types = " " + chain("l", [f'(pair "forms::One" (fields {chain("t", [U8])}))', f'(pair "forms::b::One" (fields {chain("t", [U64])}))'] + [
        f'(pair "forms::Some<{name}>" (variants {chain("tt", ["tnil", chain("t", [t])])}))' for name, (t, *_) in kept.items()])
    for k, (name, (t, made, steps, width)) in enumerate(kept.items()):
        some = one(f"forms::Some<{name}>")
        functions.append(function(f"kept<{name}>", 1, [some, t], seq(
            put(0, f"(aggregate {chain('l', [u(8, 1), copy(1)])})"), "return"), types))
        read = u(64, 9) if steps is None else copy(3, "(variant 1)", "(field 1)", *steps)
        functions.append(function(f"kept_{k}", 1, [U64, f"(tyInt {width})", t, some], seq(
            put(2, made), call(f"kept<{name}>", [copy(2)], place(3)), put(0, f"(op1 (cast unsigned unsigned 64) {read})"), "return"), types))
        check(f"kept_{k}", (200,), 9 if steps is None else 200)


def nothing():
    """The address of a unit, which is read and written through it; and what is never reached."""
    functions.append(function("unit_at", 1, [U64, U64, "tyUnit", "tyPtr", "tyUnit"], seq(
        put(2, opd("unit")), put(3, f"(addrOf {place(2)})"), put(4, opd(copy(3, "(deref tyUnit)"))), put(3, opd(copy(4)), "(deref tyUnit)"),
        put(3, f"(addrOf {place(3, '(deref tyUnit)')})"), put(0, opd(copy(1))), "return")))
    check("unit_at", (7,), 7)
    never = f"(arm (lcons 1 lnil) {put(2, opd(u(32, 8)))} (arm (lcons 2 lnil) unreachable (default {put(2, opd(u(32, 9)))})))"
    functions.append(function("never", 1, [U32, U32, U32], seq(f"(switch {copy(1)} {never})", put(0, opd(copy(2))), "return")))
    check("never", (1,), 8)
    check("never", (3,), 9)


def slices():
    """Exports that are lent slices: the lengths, 0 with null; an element read at its place; one written, and then the first read."""
    at = [put(4, f"(op2 (mul unsigned) {copy(2)} {u(64, 4)})"), put(3, f"(op2 offset {copy(1, '(field 0)')} {copy(4)})")]
    read_only = SLICE.replace(" mut ", " imm ")
    functions.append(function("lengths", 2, [U64, read_only, SLICE, U64], seq(
        put(0, f"(op2 shl {copy(1, '(field 1)')} {u(64, 8)})"), put(0, f"(op2 or {copy(0)} {copy(2, '(field 1)')})"), "return")))
    functions.append(function("element", 2, [U32, read_only, U64, "tyPtr", U64],
                              seq(*at, put(0, opd(copy(3, f"(deref {U32})"))), "return")))
    functions.append(function("written", 2, [U32, SLICE, U64, "tyPtr", U64, U32], seq(
        *at, put(3, opd(u(32, 4294967295)), f"(deref {U32})"), put(3, opd(copy(1, "(field 0)"))),
        put(0, opd(copy(3, f"(deref {U32})"))), "return")))
    for first, second in itertools.product(([], [5], [1, 2, 3]), repeat=2):
        check("lengths", (first, second), len(first) * 256 + len(second))
    for i, x in enumerate([3, 0, 4294967295]):
        check("element", ([3, 0, 4294967295], i), x)
        check("written", ([3, 0, 1], i), 3 if i else 4294967295)


def switches(width):
    """Keys at the ends of the width, two in one arm, with a default."""
    half, last = 1 << (width - 1), (1 << width) - 1
    arms = (f"(arm (lcons 0 (lcons {last} lnil)) {put(0, opd(u(32, 1)))} (arm (lcons {half} lnil) {put(0, opd(u(32, 2)))} "
            f"(arm (lcons {half - 1} lnil) {put(0, opd(u(32, 3)))} (default {put(0, opd(u(32, 4)))}))))")
    functions.append(function(f"switch_{width}", 1, [U32, f"(tyInt {width})"], seq(f"(switch {copy(1)} {arms})", "return")))
    for a in ends(width):
        check(f"switch_{width}", (a,), {0: 1, last: 1, half: 2, half - 1: 3}.get(a, 4))


def program(definitions):
    return f'program {chain("l", definitions)} (fnRef "forms::main")'


def lending(name, rows):
    """The same for a function with slices: an argument that is a list is lent with its length, an empty one as null."""
    text = f"static void check_{name}(void) {{\n"
    for i, (arguments, due) in enumerate(rows):
        lists = [(k, x) for k, x in enumerate(arguments) if isinstance(x, list)]
        arrays_ = "".join(f"uint32_t x{k}[] = {{{', '.join(map(str, x))}}}; " for k, x in lists if x)
        given = [(f"x{k}, {len(x)}" if x else "NULL, 0") if isinstance(x, list) else f"UINT64_C({x})" for k, x in enumerate(arguments)]
        text += (f"    {{ {arrays_}if ({name}({', '.join(given)}) != UINT64_C({due}))\n"
                 f'        failed += 1, printf("FAILED: {name}, row {i}\\n"); }}\n')
    return text + "}\n\n"


def table(name, rows):
    """C that goes over the checks of one function."""
    if any(isinstance(x, list) for x in rows[0][0]):
        return lending(name, rows)
    numbers = ", ".join("{" + ", ".join(f"UINT64_C({x})" for x in (*arguments, due)) + "}" for arguments, due in rows)
    count = len(rows[0][0])
    arguments = ", ".join(f"t[i][{k}]" for k in range(count))
    return (f"static void check_{name}(void) {{\n    static const uint64_t t[][{count + 1}] = {{{numbers}}};\n    size_t i;\n"
            f"    for (i = 0; i < sizeof t / sizeof t[0]; i++)\n        if ({name}({arguments}) != t[i][{count}])\n"
            f'            failed += 1, printf("FAILED: {name}, row %lu\\n", (unsigned long)i);\n}}\n\n')


def run(compiler, folder):
    for width in (8, 16, 32, 64):
        binaries(width)
        unaries(width)
        casts(width)
        switches(width)
    for group in (bools, floats, statements, places, memory, arrays, elements, constants, instances, nothing, slices):
        group()
    names = sorted({name for name, _, _ in checks})
    with open(f"{folder}/telescope.h", "w", encoding="utf-8") as file:
        file.write("#include <stddef.h>\n#include <stdint.h>\n")
    with open(f"{folder}/forms.c", "w", encoding="utf-8") as file:
        file.write("#pragma GCC diagnostic ignored \"-Wunused-function\"\n")
        file.write(File(program(functions), [f"forms::{name}" for name in names]).whole())
        file.write("\n#include <stdio.h>\n\nstatic unsigned long failed;\n\n")
        for name in names:
            file.write(table(name, [(arguments, due) for other, arguments, due in checks if other == name]))
        calls = "".join(f"    check_{name}();\n" for name in names)
        said = f"forms: {len(checks)} checks of {len(names)} functions, %lu failed\\n"
        file.write(f'int main(void) {{\n{calls}    printf("{said}", failed);\n    return failed != 0;\n}}\n')
    command = compiler + ["-std=c99", "-Wno-missing-prototypes", f"{folder}/forms.c", "-o", f"{folder}/forms"]
    if subprocess.run(command, check=False).returncode != 0:
        sys.exit("forms: not compiled")
    return subprocess.run([f"{folder}/forms"], check=False).returncode


def one(result, rvalue, *params, types=""):
    return program([function("one", len(params), [result, *params], seq(put(0, rvalue), "return"), types)])


def texts_of_forms():
    return {
        one("(tyInt 128)", opd(u(64, 1))): "128 bits", one(U8, opd(u(8, 256))): "doesn't fit", one(U8, opd(u(16, 1))): "uint16_t",
        one(F64, f"(op2 floatRem {copy(1)} {copy(1)})", F64): "floatRem", one(U64, f"(op1 ptrAddr {copy(1)})", "tyPtr"): "ptrAddr",
        one(BOOL, f"(op2 ptrEq {copy(1)} {copy(1)})", "tyPtr"): "ptrEq", one(U8, f"(op2 (add odd) {copy(1)} {copy(1)})", U8): "odd",
        one(U8, f"(op2 (add unsigned) {copy(1)} {u(16, 1)})", U8): "uint16_t",
        one(U8, opd("(constant 5)")): "the operand (constant ..) is not known", one(U8, opd("(intNeg 8 1)")): "the operand (intNeg",
        one(U8, opd("(intBig 8 1)")): "the operand (intBig", one("tyPtr", opd("(ptrConst 0)")): "the operand (ptrConst",
        one(U8, opd("other")): "the operand other is not known", one(U8, "(aggregate)"): "aggregate with 1 parts",
        one(U8, "aggregate"): "aggregate with 1 parts",
        one("(tyEnum tnil)", "(aggregate lnil)"): "tyEnum", one(U8, opd(copy(3))): "no local 3", one(U8, "(fetch 1)"): "fetch",
        one('(tyStruct "other" tnil)', "(aggregate lnil)"): "other",
        one('(tyNamed (pair "forms::No" lnil))', "(aggregate lnil)"): "forms::No",
        one(U8, opd("true")): "assignment", program([function("one", 0, [U8], "((seq))")]): "not known",
        program([function("one", 0, [U8, PAIR], seq(put(0, opd(copy(1, "(field 3)"))), "return"), TYPES)]): "no such field",
        one("(tyArray tyPtr (lenLit 2))", "(aggregate lnil)"): "elements of type address", one(U8, opd(copy(1, "(index 0)")), U8): "index",
        program([function("one", 0, [U8], "(exit 0)")]): "exit 0", program([function("one", 0, [U8], "(jump 1)")]): "jump",
        program([function("one", 0, [U8], seq(call("one", [], place(0)), "return"))]): "circle",
        program([function("one", 0, [U8], '(call (foreign "abs") lnil (place 0 lnil))')]): "direct",
        program([function("one", 0, [U8], seq(call("none", [], place(0)), "return"))]): "forms::none",
        program([function("one", 1, [U8, PAIR], "return", TYPES)]): "export", program([]) + ")": "too many", "program": "rlib_mir",
        program([function("one", 0, [U8, "tyPtr"], f"(lendStatic {place(1)} (tyArray {U8} (lenLit 2)) (ints 8 (lcons 1 lnil)))")]): "1 numbers",
        program([function("one", 0, [U8, "tyPtr"], f"(lendStatic {place(1)} {U8} (ints 8 (lcons 1 lnil)))")]): "are lent as uint8_t",
    }


def texts_of_types():
    """Constants that are lent, elements, and names of instances."""
    def lent(kind, nodes):
        return program([function("one", 0, [U8, "tyPtr"], f"(lendStatic {place(1)} {kind} (parts {chain('l', nodes)}))", TYPES)])

    def sized(kind):
        return one(U64, opd(f"(sizeOf {kind})"), types=declared(f'(pair "forms::Lent" (fields {chain("t", [SLICE])}))'))
    named_alike = ("b_T", "b_a_T", "b<a::T>")
    others = [function(name, 0, [U8], seq(put(0, opd(u(8, 1))), "return")) for name in named_alike]
    return {
        lent(PAIR, [u(8, 1), "unit"]): "a constant of 2 parts is lent as struct forms_Pair", lent(U8, [u(8, 1)]): "a constant of 1 parts",
        lent(PAIR, [u(8, 1), u(8, 1), u(64, 1)]): "uint8_t where void is due", lent(ENUM, [u(8, 3)]): "no constant of its own",
        lent(ENUM, []): "a constant of 0 parts", lent(ENUM, [copy(0)]): "the constant (copy", lent(F64, []): "an aggregate of double",
        sized("tyPtr"): "elements of type address", sized("tyUnit"): "elements of type unit", sized(ENUM): "16 bytes in MIR and 24 in C",
        sized(EMPTY): "0 bytes in MIR and 1 in C", sized('(tyNamed (pair "forms::Lent" lnil))'): "an element with an address within",
        one('(tyNamed (pair "forms::{No}" lnil))', "(aggregate lnil)"): "a path of names",
        program([function("one", 1, [U8, SLICE.replace(U32, PAIR)], "return", TYPES)]): "an export with a parameter of type struct slice",
        program([function("one", 0, [U8], seq(*(call(name, [], place(0)) for name in named_alike), "return")), *others]): "one name in C",
    }


def refused():
    """Texts that are no MIR, or MIR that has no C99, each with a word of the message."""
    texts = texts_of_forms() | texts_of_types()
    failed = 0
    for text, due in texts.items():
        try:
            File(text, ["forms::one"]).whole()
            said = "nothing"
        except Stop as problem:
            said = str(problem)
        if due not in said:
            failed += 1
            print(f"FAILED: '{due}' is not in what was said: {said}")
    print(f"forms: {len(texts)} texts to refuse, {failed} failed")
    return failed


if __name__ == "__main__":
    with tempfile.TemporaryDirectory() as room:
        sys.exit(int(run(sys.argv[1:] or ["gcc"], room) != 0 or refused() != 0))
