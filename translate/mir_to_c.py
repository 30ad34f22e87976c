#!/usr/bin/env python3
"""
From the proved MIR of Rattle crates to one C99 file: `mir_to_c.py [--copies] EXPORT.. < MIR > FILE.c`, where MIR is what rlib_mir.py prints
of built libraries, and EXPORT the path of a function to be called from C. The functions that the exports reach are translated one by one,
each statement by itself. Nothing is optimized but copies of structs (copies.py), and with --copies they stay too. What is not in the tables
below ends the run with a message.

MIR's grammar, and what each form becomes. The meaning of each is that of the kit's logic (Mir/Syntax, Mir/Val, Prog/Memory, Prog/Machine).

  program FNS MAIN                the functions by name; MAIN is left out
  fn-def NAME ITEM [TYPES]        a static function under a comment with its path, `::` being `_`; TYPES are declared structs and enums.
                                  What is generic has its arguments in <>; of each path among them C has the last name alone, but
                                  for a closure's, or where another function or type has that name: a::B<c::D> is a_B_D
  fnItem N BOUNDS PARAMS LOCALS BODY   l0 the result, l1.. the parameters, then the other locals; lifetimes (N, BOUNDS) are left out
  local TYPE HOME                 a C variable, wherever it lives. No local is read before it is written: so much is proved

  tyInt 8|16|32|64                uint8_t .. uint64_t, signed or not; 128 is refused
  tyBool                          uint8_t, 0 or 1
  tyFloat 32|64                   float, double: IEEE 754's, which the C asks of its compiler
  tyPtr, tyRef LIFETIME MUT TYPE  unsigned char *; an address counts bytes. C's const is dropped where a slice is lent: nothing
                                  writes through a `&`, so much is proved
  tyArray TYPE (lenLit N)         a struct of an array; a stand-in of one element where N is 0, since C has no empty array. Of one that is
                                  an element itself C checks that no bytes are added to it. Of a struct or an enum that is an element
                                  it checks that it has the bytes that the logic gives it; one with other bytes in C is refused
  tyUnit                          nothing: no variable, no parameter, no field
  tyStruct "&[]" ..               struct slice: an address and a count of elements in 64 bits; any other struct spelled out is refused
  tyNamed (pair NAME ..)          the declared struct, fields f0.., or the enum: a tag, which is the variant's position, and a union
                                  with a struct v0.. for each variant that has fields
  tyEnum                          refused: an enum is printed by its name

  place LOCAL STEPS               an lvalue: the local, and then step by step
    deref TYPE                    (*(TYPE *)address), of the type that lies there; at the end of an addrOf it is the address itself
    field K                       .fK; of an enum's variant V: the tag for 0, else .u.vV.f(K-1)
    variant V                     what the next field is one of
  copy PLACE                      the lvalue
  int W N, float F N              a constant by its number, or by its bits
  sizeOf TYPE                     the number of bytes that the logic gives the type, which is checked as for an element
  intNeg W K, intBig W N          refused: in the logic 2^W - K, and N with a proof that it fits; either is printed as int
  ptrConst N                      refused: the logic gives it no meaning
  true, false, unit               1, 0, nothing

  rvOpd X                         X
  addrOf PLACE                    (unsigned char *)& of the lvalue; of a unit, the address of a byte that is never read
  aggregate XS                    a compound literal, so that all XS are read before anything is written; a constant array is copied
                                  from a static const one
  repeat X N                      X read once, and a loop that writes it N times
  op1 OP X, op2 OP X Y            OP on operands that are cast so that C computes in unsigned numbers, and cast to the result's type:
    add sub mul S, and or xor shl   in uint32_t for narrower ones, in uint64_t for a signed one; the number that MIR has proved to fit
    wrapAdd wrapSub wrapMul         the same, unsigned: the number that fits, by a multiple of 2^W
    div rem shr lt le S             signed ones by the signed_W of their operands, shr by shift_signed
    eq ne not                     == != ~, and ! for a bool
    cast S S W                    a C cast of X, or of signed_W of X where the first S is signed
    offset                        address + (size_t) count of bytes. MIR by itself doesn't say that the address stays within its
                                  object, as C asks: each offset in the exports' functions is followed by an access there, or makes a
                                  slice that is proved to lie within
    leadingZeros trailingZeros countOnes   a helper that loops over the bits
    floatAdd floatSub floatMul floatDiv    a helper that stores the result, so that none is kept wider or fused with the next
    floatEq floatNe floatLt floatLe floatNeg   == != < <= -
    floatToBits floatFromBits     a helper with a union
    intToFloat floatToInt floatToFloat     a C cast, exact by MIR's own condition
    floatRem                      refused: it is in C's mathematics library
    ptrAddr withAddr ptrEq ptrNe ptrLt ptrLe   refused: the logic gives them no meaning

  skip, seq A B                   nothing; A and then B
  assign PLACE RVALUE             PLACE = RVALUE;
  if X A B                        if (X) { A } else { B }, without an empty half
  block A                         A, and a label at its end that an exit goes to
  loop A                          for (;;) { A }, and a label at A's end that an exit goes to: the next turn
  exit N                          goto that label of the Nth block or loop around it, counted from the inmost, which is 0
  switch X ARMS                   switch (X) with the arms' keys as cases and a break behind each arm that may end
    arm KEYS A ARMS, default A    case KEY: A; default: A
    noDefault                     the last arm is the default too: no other key comes, so much is proved
  lendStatic PLACE TYPE CONSTANT  PLACE = the address of a static const variable of the TYPE
    ints W NS                     an array of the numbers NS, of W bits each
    parts CS                      a struct's fields, another array's elements, or an enum's tag and then that variant's fields
    int W N, true, false, unit    as the operands
  call (direct (fnRef F)) XS PLACE   PLACE = F(XS); the address of PLACE, where it goes through a deref, is found after the call
  call (foreign ..) ..            refused
  return                          return l0;
  unreachable                     for (;;) { }: it is never reached, so much is proved

An export is not static and has the last name of its path, and for each slice a pointer and a size_t, out of which the slice is made at its
head. Callees stand before callers; a call in a circle is refused. Exports that reach a float, and what only they reach, stand last and go
with ALBA_NO_DOUBLE. The reading of the text is in mir.py, C's types and helpers are in c_types.py, and the file's opening is head.c.
"""
import os
import re
import sys

from c_types import Types, constant, declare, helpers, wrapped
from copies import fewer
from mir import (ADDRESS, BOOL, FLOATS, U8, U32, U64, UNIT, Program, Stop, brief, format_of, head, items, name, number, one_of, parts,
                 read_element, read_type, width_of)

SIGNS = ("unsigned", "signed")
ARITHMETIC = {"add": "+", "sub": "-", "mul": "*"}
WRAPPING = {"wrapAdd": "+", "wrapSub": "-", "wrapMul": "*"}
BITWISE = {"and": "&", "or": "|", "xor": "^"}
DIVIDING = {"div": "/", "rem": "%"}
ORDER = {"lt": "<", "le": "<="}
EQUALITY = {"eq": "==", "ne": "!="}
FLOAT_ORDER = {"floatEq": "==", "floatNe": "!=", "floatLt": "<", "floatLe": "<="}
FLOAT_ARITHMETIC = {"floatAdd": "add", "floatSub": "sub", "floatMul": "mul", "floatDiv": "div"}
WORDS = {"true": ("1", BOOL), "false": ("0", BOOL), "unit": ("", UNIT)}
COUNTS = {"leadingZeros": "leading_zeros", "trailingZeros": "trailing_zeros", "countOnes": "count_ones"}


class Function:
    """One function: its head, and its body statement by statement."""

    def __init__(self, program, types, path):
        self.program, self.types, self.path = program, types, path
        _, _, params, locals_, self.body = parts(program.function(path), "fnItem", 5)
        self.locals = self.types_of(items(locals_))
        self.params = number(params)
        self.read, self.used, self.calls, self.helpers = set(), set(), [], set()
        self.again()

    def types_of(self, locals_):
        try:
            return [read_type(parts(local, "local", 2)[0]) for local in locals_]
        except Stop as problem:
            raise Stop(f"{self.path}: {problem}") from None

    def again(self):
        self.around, self.labels, self.gone_to, self.lines, self.indent = [], 0, set(), [], "    "

    def emit(self, text):
        self.lines.append(self.indent + text)

    def help(self, helper):
        self.helpers.add(helper)
        return helper

    # -- places

    def local(self, node):
        k = number(node)
        if k >= len(self.locals):
            raise Stop(f"there is no local {k}")
        self.used.add(k)
        return k

    def place(self, node, written=False):
        """An lvalue and its type. A place that is written reads no local but those whose address it goes through."""
        local, steps = parts(node, "place", 2)
        k, steps = self.local(local), items(steps)
        text, t = self.walk(f"l{k}", self.locals[k], steps)
        if t != UNIT and (not written or any(head(step) == "deref" for step in steps)):
            self.read.add(k)
        return text, t

    def walk(self, text, t, steps):
        variant = None
        for step in steps:
            if head(step) == "variant" and variant is None:
                variant = number(parts(step, "variant", 1)[0])
            elif head(step) == "field":
                text, t = self.field(text, t, variant, number(parts(step, "field", 1)[0]))
                variant = None
            elif t == ADDRESS and variant is None:
                t = read_type(parts(step, "deref", 1)[0])
                text = f"(*({declare(self.types.c(t), '*')}){text})"
            else:
                raise Stop(f"the step {brief(step)} from {self.types.c(t)}")
        if variant is not None:
            raise Stop("a variant as a whole")
        return text, t

    def field(self, text, t, variant, k):
        if t[0] == "slice" and variant is None and k < 2:
            return f"{text}.f{k}", (ADDRESS, U64)[k]
        if t[0] != "named":
            raise Stop(f"a field of {self.types.c(t)}")
        shape, fields = self.program.shape(t[1])
        if (shape == "fields") != (variant is None):
            raise Stop(f"a field of {t[1]} that goes not by what it is")
        if variant is not None:
            if k == 0:
                return f"{text}.tag", U8
            text, fields, k = f"{text}.u.v{variant}", fields[variant] if variant < len(fields) else [], k - 1
        if k >= len(fields):
            raise Stop(f"{t[1]} has no such field")
        return f"{text}.f{k}", fields[k]

    def address(self, node):
        """What is pointed at needs no look: & and * cancel out, at null too."""
        local, steps = parts(node, "place", 2)
        steps = items(steps)
        if steps and head(steps[-1]) == "deref":
            k = self.local(local)
            self.read.add(k)
            text, t = self.walk(f"l{k}", self.locals[k], steps[:-1])
            if t != ADDRESS:
                raise Stop(f"a deref of {self.types.c(t)}")
            return text
        text, t = self.place(node)
        return '(unsigned char *)""' if t == UNIT else f"(unsigned char *)&{text}"

    # -- values

    def operand(self, node):
        word = head(node)
        if isinstance(node, str) and node in WORDS:
            return WORDS[node]
        if word == "copy":
            return self.place(parts(node, word, 1)[0])
        if word == "int":
            width, value = parts(node, word, 2)
            return constant(width_of(width), number(value)), ("int", width_of(width))
        if word == "float":
            width, value = parts(node, word, 2)
            f = format_of(width)
            return f"{self.help(f'f{f}_of_bits')}({constant(f, number(value))})", ("float", f)
        if word == "sizeOf":
            t = read_element(parts(node, word, 1)[0])
            self.types.element(t)
            return constant(64, self.types.size(t)), U64
        raise Stop(f"the operand {brief(node)} is not known")

    def operands(self, node):
        return [self.operand(x) for x in items(node)]

    def value(self, node, wanted):
        """An expression of the type that is wanted, and its type as the operation gives it."""
        word = head(node)
        if word == "rvOpd":
            return self.operand(parts(node, word, 1)[0])
        if word == "addrOf":
            return self.address(parts(node, word, 1)[0]), ADDRESS
        if word == "aggregate":
            return f"({self.types.c(wanted)}){self.aggregate(self.operands(parts(node, word, 1)[0]), wanted)}", wanted
        if word == "op1":
            op, x = parts(node, word, 2)
            return self.op1(op, *self.operand(x))
        if word == "op2":
            op, x, y = parts(node, word, 3)
            return self.op2(op, self.operand(x), self.operand(y))
        raise Stop(f"the value {brief(node)} is not known")

    def same(self, t, u, what):
        """The same type; of a slice it doesn't matter whether it may be written."""
        t, u = (("slice", "imm", x[2]) if x[0] == "slice" else x for x in (t, u))
        if t != u:
            raise Stop(f"{what}: {self.types.c(t)} where {self.types.c(u)} is due")

    def listed(self, operands, due, what):
        """Operands of the types due, without those that are nothing in C, each with its position."""
        if len(operands) != len(due):
            raise Stop(f"{what}: {len(operands)} where {len(due)} are due")
        for (_, t), u in zip(operands, due):
            self.same(t, u, what)
        return [(i, text) for i, (text, t) in enumerate(operands) if t != UNIT]

    def aggregate(self, operands, t):
        """What stands behind the type in a compound literal."""
        if t[0] == "array":
            texts = [text for _, text in self.listed(operands, [t[1]] * t[2], "elements")]
            return f"{{{{{', '.join(texts) or '0'}}}}}"
        if t[0] == "slice":
            texts = [f".f{i} = {text}" for i, text in self.listed(operands, [ADDRESS, U64], "a slice")]
            return f"{{{', '.join(texts)}}}"
        shape, fields = self.program.shape(t[1]) if t[0] == "named" else (None, None)
        if shape == "fields":
            texts = [f".f{i} = {text}" for i, text in self.listed(operands, fields, t[1])]
            return f"{{{', '.join(texts) or '.nothing = 0'}}}"
        if shape != "variants":
            raise Stop(f"an aggregate of {self.types.c(t)}")
        return self.variant(operands, t, fields)

    def tag(self, text, t, variants):
        constant_ = re.fullmatch(r"UINT8_C\((\d+)\)", text)
        if constant_ is None or int(constant_.group(1)) >= len(variants):
            raise Stop(f"the tag of {t[1]} is no constant of its own")
        return int(constant_.group(1))

    def variant(self, operands, t, variants):
        k = self.tag(operands[0][0] if operands else "", t, variants)
        texts = [f".f{i} = {text}" for i, text in self.listed(operands[1:], variants[k], t[1])]
        union = f", .u = {{.v{k} = {{{', '.join(texts)}}}}}" if texts else ""
        return f"{{.tag = {k}{union}}}"

    # -- operations

    def wide(self, text, t, sign="unsigned"):
        """So that C's own promotion to a signed int doesn't come into it."""
        if sign == "signed":
            return f"(uint64_t){text}"
        return f"(uint32_t){text}" if t[1] < 32 else text

    def signed(self, text, t):
        return f"{self.help(f'signed_{t[1]}')}({text})"

    def op2(self, op, first, second):
        (x, t), (y, u) = first, second
        if op == "offset":
            self.same(t, ADDRESS, "offset")
            self.same(u, U64, "offset")
            return f"{x} + (size_t){y}", ADDRESS
        word = head(op)
        sign = one_of(parts(op, word, 1)[0], SIGNS) if isinstance(op, list) else None
        if t != u:
            raise Stop(f"{word} of {self.types.c(t)} and {self.types.c(u)}")
        if t[0] == "float" and sign is None:
            return self.float_op2(word, x, y, t)
        if t == BOOL and sign is None and word in EQUALITY | BITWISE:
            return f"(uint8_t)({x} {(EQUALITY | BITWISE)[word]} {y})", BOOL
        if t[0] == "int":
            return self.int_op2(word, sign, x, y, t)
        raise Stop(f"the operation {brief(op)} of {self.types.c(t)}")

    def int_op2(self, word, sign, x, y, t):
        c_type = self.types.c(t)
        if sign is None and word in EQUALITY:
            return f"(uint8_t)({x} {EQUALITY[word]} {y})", BOOL
        if sign is None and word in BITWISE | {"shl": "<<"}:
            return f"({c_type})({self.wide(x, t)} {(BITWISE | {'shl': '<<'})[word]} {y})", t
        if sign is None and word in WRAPPING:
            return f"({c_type})({self.wide(x, t)} {WRAPPING[word]} {self.wide(y, t)})", t
        if sign in SIGNS and word in ARITHMETIC:
            return f"({c_type})({self.wide(x, t, sign)} {ARITHMETIC[word]} {self.wide(y, t, sign)})", t
        if sign == "signed" and word == "shr":
            return f"({c_type}){self.help('shift_signed')}((uint64_t){self.signed(x, t)}, {y})", t
        if sign == "signed" and word in DIVIDING | ORDER:
            x, y = self.signed(x, t), self.signed(y, t)
        if sign in SIGNS and word in ORDER:
            return f"(uint8_t)({x} {ORDER[word]} {y})", BOOL
        if sign in SIGNS and word in DIVIDING | {"shr": ">>"}:
            return f"({c_type})({x} {(DIVIDING | {'shr': '>>'})[word]} {y})", t
        raise Stop(f"the operation {word} on integers is not known")

    def float_op2(self, word, x, y, t):
        if word in FLOAT_ORDER:
            return f"(uint8_t)({x} {FLOAT_ORDER[word]} {y})", BOOL
        if word in FLOAT_ARITHMETIC:
            return f"{self.help(f'f{t[1]}_{FLOAT_ARITHMETIC[word]}')}({x}, {y})", t
        raise Stop(f"the operation {word} on floats is not known")

    def op1(self, op, x, t):
        word = head(op)
        if op == "not" and t == BOOL:
            return f"(uint8_t)!{x}", BOOL
        if op == "not" and t[0] == "int":
            return f"({self.types.c(t)})~{self.wide(x, t)}", t
        if isinstance(op, str) and op in COUNTS and t[0] == "int":
            return f"{self.help(COUNTS[op])}({x}, {t[1]})", U32
        if word == "cast" and t[0] in ("int", "bool"):
            sign, to_sign, width = parts(op, word, 3)
            one_of(to_sign, SIGNS)
            x = self.signed(x, t) if one_of(sign, SIGNS) == "signed" and t != BOOL else x
            return f"(uint{width_of(width)}_t){x}", ("int", width_of(width))
        return self.float_op1(op, x, t)

    def float_op1(self, op, x, t):
        word = head(op)
        if op == "floatNeg" and t[0] == "float":
            return f"-{x}", t
        if op == "floatToBits" and t[0] == "float":
            return f"{self.help(f'bits_of_f{t[1]}')}({x})", ("int", t[1])
        if word == "floatFromBits" and t == ("int", format_of(parts(op, word, 1)[0])):
            return f"{self.help(f'f{t[1]}_of_bits')}({x})", ("float", t[1])
        if word == "floatToFloat" and t[0] == "float":
            f = format_of(parts(op, word, 1)[0])
            return f"({FLOATS[f]}){x}", ("float", f)
        if word == "intToFloat" and t[0] == "int":
            sign, f = parts(op, word, 2)
            x = self.signed(x, t) if one_of(sign, SIGNS) == "signed" else x
            return f"({FLOATS[format_of(f)]}){x}", ("float", format_of(f))
        if word == "floatToInt" and t[0] == "float":
            sign, width = parts(op, word, 2)
            w = width_of(width)
            return f"(uint{w}_t)" + (f"(int{w}_t)" if one_of(sign, SIGNS) == "signed" else "") + x, ("int", w)
        raise Stop(f"the operation {brief(op)} of {self.types.c(t)} is not known")

    # -- statements

    def statement(self, node):
        while head(node) == "seq":
            first, node = parts(node, "seq", 2)
            self.statement(first)
        word = head(node)
        if node == "return":
            self.read.add(0)
            self.emit("return;" if self.locals[0] == UNIT else "return l0;")
        elif node == "unreachable":
            self.emit("for (;;) {")
            self.emit("}")
        elif node != "skip":
            forms = {"assign": (self.assign, 2), "if": (self.branch, 3), "block": (self.block, 1), "loop": (self.loop, 1),
                     "exit": (self.exit, 1), "switch": (self.switch, 2), "call": (self.call, 3), "lendStatic": (self.lend_static, 3)}
            if word not in forms:
                raise Stop(f"the statement {brief(node)} is not known")
            form, count = forms[word]
            form(*parts(node, word, count))

    def inner(self, node):
        self.indent += "    "
        self.statement(node)
        self.indent = self.indent[4:]

    def assign(self, place, rvalue):
        text, t = self.place(place, written=True)
        if head(rvalue) == "repeat":
            self.repeat(text, t, *parts(rvalue, "repeat", 2))
        else:
            self.write(text, t, rvalue)
        self.name_unread(place)

    def name_unread(self, place):
        """A variable that nothing reads is named behind what is written to it, so that no compiler takes it for a slip."""
        k = number(parts(place, "place", 2)[0])
        if k not in self.read and self.locals[k] != UNIT:
            self.emit(f"(void)l{k};")

    def write(self, text, t, rvalue):
        value, u = self.value(rvalue, t)
        constants = head(rvalue) == "aggregate" and all(head(x) == "int" for x in items(parts(rvalue, "aggregate", 1)[0]))
        self.same(u, t, "an assignment")
        if constants and t[0] == "array" and t[2] > 0:
            c_type, indent = self.types.c(t), self.indent + " " * 8
            texts = value[len(f"({c_type}){{{{"):-2].split(", ")
            self.through(text, f"static const {c_type}", f"{{{{\n{indent}{wrapped(texts, indent)}}}}}")
        elif t != UNIT:
            self.emit(f"{text} = {value};")

    def through(self, text, c_type, value):
        """What is written is made before, as a whole."""
        self.emit("{")
        self.emit(f"    {declare(c_type, 'value')} = {value};")
        self.emit(f"    {text} = value;")
        self.emit("}")

    def lend_static(self, place, kind, constant_):
        """The address of a constant: what is lent is never written, so much is proved, and C needs no block of its own each time."""
        text, t = self.place(place, written=True)
        self.same(t, ADDRESS, "a constant that is lent")
        u = read_type(kind)
        made = self.constant(constant_, u, self.indent + " " * 8)
        self.emit("{")
        self.emit(f"    static const {declare(self.types.c(u), 'value')} = {made};")
        self.emit(f"    {text} = (unsigned char *)&value;")
        self.emit("}")
        self.name_unread(place)

    def constant(self, node, t, indent):
        """What stands behind = where a constant of the type is defined."""
        word = head(node)
        if word == "ints":
            return self.constant_numbers(*parts(node, word, 2), t, indent)
        if word == "parts":
            return self.aggregate(self.constant_parts(items(parts(node, word, 1)[0]), t, indent), t)
        if word == "float" or word == "copy":
            raise Stop(f"the constant {brief(node)} is not known")
        text, u = self.operand(node)
        self.same(u, t, "a constant")
        return text

    def constant_numbers(self, width, values, t, indent):
        numbers = [number(value) for value in items(values)]
        if t[0] != "array" or t[1] != ("int", width_of(width)) or t[2] != len(numbers):
            raise Stop(f"{len(numbers)} numbers of {width} bits are lent as {self.types.c(t)}")
        texts = [constant(t[1][1], value) for value in numbers]
        return f"{{{{\n{indent}{wrapped(texts, indent)}}}}}" if texts else "{{0}}"

    def constant_parts(self, nodes, t, indent):
        """Each with its type: an enum's tag and then its fields, a struct's fields, or an array's elements."""
        shape, kinds = self.program.shape(t[1]) if t[0] == "named" else (None, [t[1]] * t[2] if t[0] == "array" else [])
        if shape == "variants" and nodes:
            kinds = [U8] + kinds[self.tag(self.constant(nodes[0], U8, indent), t, kinds)]
        if len(nodes) != len(kinds):
            raise Stop(f"a constant of {len(nodes)} parts is lent as {self.types.c(t)}")
        return [(self.constant(node, kind, indent), kind) for node, kind in zip(nodes, kinds)]

    def repeat(self, text, t, x, count):
        value, u = self.operand(x)
        n = number(count)
        if t[0] != "array" or t[2] != n:
            raise Stop(f"{n} elements of {self.types.c(t)}")
        self.same(u, t[1], "a repeated element")
        if n == 0:
            self.emit(f"{text} = ({self.types.c(t)}){self.aggregate([], t)};")
            return
        self.emit("{")
        self.emit(f"    {declare('const ' + self.types.c(u), 'value')} = {value};")
        self.emit("    size_t i;")
        self.emit(f"    for (i = 0; i < {n}; i++)")
        self.emit(f"        {text}.a[i] = value;")
        self.emit("}")

    def branch(self, condition, yes, no):
        text, t = self.operand(condition)
        self.same(t, BOOL, "a condition")
        if yes == "skip":
            self.emit(f"if (!{text}) {{")
            self.inner(no)
        else:
            self.emit(f"if ({text}) {{")
            self.inner(yes)
            if no != "skip":
                self.emit("} else {")
                self.inner(no)
        self.emit("}")

    def within(self, kind, body, inner):
        """A block's or a loop's body, and the label at its end, where an exit goes to it."""
        self.labels += 1
        label = f"{kind}_{self.labels}"
        self.around.append(label)
        inner(body)
        self.around.pop()
        return label if label in self.gone_to else None

    def block(self, body):
        label = self.within("done", body, self.statement)
        if label:
            self.emit(f"{label}:;")

    def loop(self, body):
        self.emit("for (;;) {")
        label = self.within("again", body, self.inner)
        if label:
            self.emit(f"    {label}:;")
        self.emit("}")

    def exit(self, count):
        n = number(count)
        if n >= len(self.around):
            raise Stop(f"exit {n} with {len(self.around)} blocks and loops around it")
        label = self.around[-1 - n]
        self.gone_to.add(label)
        self.emit(f"goto {label};")

    def switch(self, on, arms):
        text, t = self.operand(on)
        if t[0] != "int":
            raise Stop(f"a switch on {self.types.c(t)}")
        self.emit(f"switch ({text}) {{")
        while head(arms) == "arm":
            keys, body, arms = parts(arms, "arm", 3)
            for key in items(keys):
                self.emit(f"case {constant(t[1], number(key))}:")
            if arms == "noDefault":
                self.emit("default:")
            self.arm(body)
        if arms != "noDefault":
            self.emit("default:")
            self.arm(parts(arms, "default", 1)[0])
        self.emit("}")

    def arm(self, body):
        self.inner(body)
        if not leaves(body):
            self.emit("    break;")

    def call(self, callee, arguments, place):
        path = name(parts(parts(callee, "direct", 1)[0], "fnRef", 1)[0])
        other = Function(self.program, self.types, path)
        due = other.locals[1:1 + other.params]
        texts = [text for _, text in self.listed(self.operands(arguments), due, f"arguments of {path}")]
        text, t = self.place(place, written=True)
        self.same(other.locals[0], t, f"the result of {path}")
        self.calls.append(path)
        made = f"{self.types.names.of(path)}({', '.join(texts)})"
        if t == UNIT:
            self.emit(f"{made};")
        elif text.startswith("("):
            self.through(text, "const " + self.types.c(t), made)
        else:
            self.emit(f"{text} = {made};")
        self.name_unread(place)

    # -- the whole

    def translate(self, exported):
        try:
            return self.whole(exported)
        except Stop as problem:
            raise Stop(f"{self.path}: {problem}") from None

    def whole(self, exported):
        """Its statements twice: the second time it is known which locals are read at all."""
        self.statement(self.body)
        self.again()
        self.statement(self.body)
        inside = [k for k in sorted(self.used | {0}) if not 1 <= k <= self.params and self.locals[k] != UNIT]
        variables = [f"    {declare(self.types.c(self.locals[k]), f'l{k}')};" for k in inside]
        unread = [f"    (void)l{k};" for k in range(1, self.params + 1) if k not in self.read and self.locals[k] != UNIT]
        parameters, made = self.lent() if exported else (self.parameters(), [])
        title = self.path.split("::")[-1] if exported else self.types.names.of(self.path)
        opening = f"{'' if exported else 'static '}{declare(self.types.c(self.locals[0]), title)}("
        lines = made + variables + unread + self.lines
        return f"/* {self.path} */\n{opening}{wrapped(parameters, '    ', len(opening))}) {{\n" + "\n".join(lines) + "\n}\n"

    def parameters(self):
        real = [(k, self.locals[k]) for k in range(1, self.params + 1) if self.locals[k] != UNIT]
        return [declare(self.types.c(t), f"l{k}") for k, t in real] or ["void"]

    def lent(self):
        """An export's parameters, a pointer and a size_t for each slice, and the slices that are made of them."""
        parameters, made = [], []
        for k, t in enumerate(self.locals[1:1 + self.params], 1):
            if t[0] == "slice" and t[2][0] != "named":
                const = "const " if t[1] == "imm" else ""
                parameters += [f"{const}{declare(self.types.c(t[2]), f'*a{k}')}", f"size_t a{k}_len"]
                made.append(f"    struct slice l{k} = lent(a{k}, a{k}_len);")
            elif t[0] in ("int", "float"):
                parameters.append(declare(self.types.c(t), f"l{k}"))
            else:
                raise Stop(f"an export with a parameter of type {self.types.c(t)}")
        return parameters or ["void"], made


def leaves(node):
    """Whether a statement ends in a return or an exit, so that nothing behind it is reached."""
    while head(node) == "seq":
        _, node = parts(node, "seq", 2)
    if head(node) == "if":
        _, yes, no = parts(node, "if", 3)
        return leaves(yes) and leaves(no)
    return node in ("return", "unreachable") or head(node) == "exit"


# ---- the file

class File:
    def __init__(self, text, exports):
        self.program = Program(text)
        self.types, self.exports = Types(self.program), exports

    def reach(self, path, found, around=()):
        """The functions that one calls, each behind those that it calls itself."""
        if path in around or path in self.exports and around:
            raise Stop(f"{path} is called by {around[-1]}: a call in a circle, or of an export")
        if path not in found:
            function = Function(self.program, self.types, path)
            text = function.translate(path in self.exports)
            for callee in function.calls:
                self.reach(callee, found, around + (path,))
            found[path] = (function, text)
        return found

    def whole(self, changed=fewer):
        """What an export without a float reaches stands first, then what only one with a float does."""
        reached = sorted((self.reach(path, {}) for path in self.exports), key=has_float)
        first, last = {}, {}
        for found in reached:
            part = last if has_float(found) else first
            part.update({path: both for path, both in found.items() if path not in first})
        with open(os.path.join(os.path.dirname(os.path.abspath(__file__)), "head.c"), encoding="utf-8") as file:
            text = file.read() + "\n".join(self.types.texts) + "\n"
        text += helpers(used_by(first)) + "\n".join(body for _, body in first.values())
        if last:
            text += "\n#ifndef ALBA_NO_DOUBLE\n#include <float.h>\n\n" + helpers(used_by(last) - used_by(first))
            text += "\n".join(body for _, body in last.values()) + "\n#endif\n"
        return changed(text)


def has_float(found):
    return any(t[0] == "float" for function, _ in found.values() for t in function.locals)


def used_by(part):
    return set().union(*(function.helpers for function, _ in part.values()))


def main():
    copies = sys.argv[1:2] == ["--copies"]
    exports = sys.argv[1 + copies:]
    if not exports:
        raise Stop("usage: mir_to_c.py [--copies] EXPORT.. < MIR")
    sys.stdout.write(File(sys.stdin.read(), exports).whole(str if copies else fewer))


if __name__ == "__main__":
    try:
        main()
    except Stop as problem:
        sys.exit(f"mir_to_c: {problem}")
