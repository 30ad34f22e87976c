"""What types become in C, and what the C file has of its own."""
import re

from mir import FLOATS, UNIT, WIDTHS, Stop


def plain(text):
    return re.sub(r"\W+", "_", text).strip("_")


def last_names(text):
    """Paths by their last names, but for the type of a closure, whose last name says little."""
    return re.sub(r"[\w+]+(::[\w+]+)+", lambda path: path[0] if "+" in path[0] else path[0].split("::")[-1], text)


class Names:
    """C's names of paths. Of an argument in <> the last name stands in it; or the whole path, where another has the name with the last."""

    def __init__(self):
        self.taken = {}

    def of(self, path):
        before, less, arguments = path.partition("<")
        for name in (plain(before + less + last_names(arguments)), plain(path)):
            if self.taken.setdefault(name, path) == path:
                return name
        raise Stop(f"{path} and {self.taken[name]} would have one name in C")


def declare(c_type, variable):
    return c_type + ("" if c_type.endswith("*") else " ") + variable


def constant(width, value):
    if value >= 1 << width:
        raise Stop(f"{value} doesn't fit {width} bits")
    return f"UINT{width}_C({value})"


def wrapped(texts, indent, before=0):
    """A list in lines of bearable length, of which the first begins behind so many letters."""
    lines, line, used = [], "", before
    for i, text in enumerate(texts):
        item = text + ("," if i + 1 < len(texts) else "")
        if line and used + len(line) + len(item) > 118:
            lines.append(line)
            line, used = "", len(indent)
        line += (" " if line else "") + item
    return ("\n" + indent).join(lines + [line])


def one_after_the_other(parts):
    """Bytes and alignment of what lies so, each at the next place that its alignment allows."""
    end, align = 0, 1
    for size, of in parts:
        end, align = -(-end // of) * of + size, max(align, of)
    return -(-end // align) * align, align


def at_one_place(parts):
    align = max((of for _, of in parts), default=1)
    return -(-max((size for size, _ in parts), default=0) // align) * align, align


class Types:
    """The C types that are used, and their definitions in the order in which they are needed."""

    def __init__(self, program):
        self.program, self.names, self.made, self.texts = program, Names(), {}, []

    def c(self, t):
        kind = t[0]
        if kind == "int":
            return f"uint{t[1]}_t"
        if kind == "float":
            return FLOATS[t[1]]
        simple = {"bool": "uint8_t", "address": "unsigned char *", "unit": "void", "slice": "struct slice"}
        if kind == "slice":
            self.element(t[2])
        if kind in simple:
            return simple[kind]
        return "struct " + (self.array(t) if kind == "array" else self.named(t[1]))

    def define(self, title, origin, make):
        """The definition is made at the first use; two types of one name in C are refused."""
        if title not in self.made:
            text = make()
            self.made[title] = origin
            self.texts.append(text)
        if self.made[title] != origin:
            raise Stop(f"{origin} and {self.made[title]} would have one name in C")
        return title

    def layout(self, t, in_c):
        """Bytes and alignment, in the logic or in a C that aligns numbers to their own size."""
        if t[0] in ("int", "float"):
            return t[1] // 8, t[1] // 8
        if t[0] in ("bool", "unit"):
            return int(t[0] == "bool"), 1
        if t[0] == "array":
            size, align = self.layout(t[1], in_c)
            return size * max(t[2], int(in_c)), align
        if t[0] != "named":
            raise Stop("an element with an address within, which has another size on other machines, is not known")
        shape, fields = self.program.shape(t[1])
        if shape == "fields":
            return one_after_the_other(self.layouts(fields, in_c) or [(int(in_c), 1)])
        variants = [self.layouts(variant, in_c) for variant in fields]
        if in_c:
            return one_after_the_other([(1, 1), at_one_place(list(map(one_after_the_other, variants)))])
        return at_one_place([(1, 1)] + [one_after_the_other([(1, 1)] + variant) for variant in variants])

    def layouts(self, fields, in_c):
        return [self.layout(field, in_c) for field in fields if not in_c or field != UNIT]

    def size(self, t):
        """The bytes by which MIR steps over an element."""
        (size, _), (size_in_c, _) = self.layout(t, False), self.layout(t, True)
        if size != size_in_c:
            raise Stop(f"an element of type {self.c(t)}, which has {size} bytes in MIR and {size_in_c} in C, is not known")
        return size

    def element(self, t):
        """C steps over an element by as many bytes as MIR, or it doesn't compile: an array that is one has none behind its own elements."""
        size = self.size(t) if t[0] == "named" else 0
        c_type = self.c(t)
        if t[0] == "named":
            title = f"{plain(c_type.replace('struct ', ''))}_has_{size}_bytes"
            self.define(title, t, lambda: f"typedef char {title}[sizeof({c_type}) == {size} ? 1 : -1];\n")
        if t[0] == "array":
            title = plain(c_type.replace("struct ", "")) + "_has_its_elements_alone"
            size = f"sizeof({c_type}) == {t[2]} * sizeof({self.c(t[1])})"
            self.define(title, t, lambda: f"typedef char {title}[{size} ? 1 : -1];\n")
        return c_type

    def array(self, t):
        _, element, length = t
        inner = self.element(element)
        title = f"array_{length}_" + plain(inner.replace("struct ", ""))
        return self.define(title, t, lambda: f"struct {title} {{\n    {inner} a[{max(length, 1)}];\n}};\n")

    def named(self, path):
        def make():
            shape, fields = self.program.shape(path)
            if shape == "fields":
                body = self.members(fields, "    ") or "    uint8_t nothing;\n"
            else:
                body = "    uint8_t tag;\n" + self.union(fields)
            return f"/* {path} */\nstruct {title} {{\n{body}}};\n"
        title = self.names.of(path)
        return self.define(title, path, make)

    def members(self, fields, indent):
        real = [(i, field) for i, field in enumerate(fields) if field != UNIT]
        return "".join(f"{indent}{declare(self.c(field), f'f{i}')};\n" for i, field in real)

    def union(self, variants):
        shown = [(k, self.members(fields, " " * 12)) for k, fields in enumerate(variants)]
        texts = [f"        struct {{\n{members}        }} v{k};\n" for k, members in shown if members]
        return f"    union {{\n{''.join(texts)}    }} u;\n" if texts else ""


# ---- helper functions: those that are used are put into the file, in this order

HELPERS = {
    "leading_zeros": """static uint32_t leading_zeros(uint64_t x, uint32_t width) {
    uint32_t n = 0;
    while (n < width && ((x >> (width - 1 - n)) & 1) == 0)
        n++;
    return n;
}""",
    "trailing_zeros": """static uint32_t trailing_zeros(uint64_t x, uint32_t width) {
    uint32_t n = 0;
    while (n < width && ((x >> n) & 1) == 0)
        n++;
    return n;
}""",
    "count_ones": """static uint32_t count_ones(uint64_t x, uint32_t width) {
    uint32_t n = 0, i;
    for (i = 0; i < width; i++)
        n += (uint32_t)((x >> i) & 1);
    return n;
}""",
    "shift_signed": """static uint64_t shift_signed(uint64_t x, uint64_t n) {
    return x >> 63 != 0 ? ~(~x >> n) : x >> n;
}""",
}
for w in WIDTHS:
    HELPERS[f"signed_{w}"] = f"""static int{w}_t signed_{w}(uint{w}_t x) {{
    return (int{w}_t)(x > INT{w}_MAX ? -(int64_t)(uint{w}_t)~x - 1 : (int64_t)x);
}}"""
for w, c in FLOATS.items():
    digits, most = {32: ("FLT_MANT_DIG == 24", "FLT_MAX_EXP == 128"), 64: ("DBL_MANT_DIG == 53", "DBL_MAX_EXP == 1024")}[w]
    HELPERS[f"f{w}"] = f"""#if defined(__FAST_MATH__) || (defined(__FINITE_MATH_ONLY__) && __FINITE_MATH_ONLY__)
#error "with -ffast-math or -ffinite-math-only floats are not IEEE 754's"
#endif
typedef char {c}_is_ieee_754[sizeof({c}) == {w // 8} && FLT_RADIX == 2 && {digits} && {most} ? 1 : -1];
union f{w}_bits {{
    {c} value;
    uint{w}_t bits;
}};"""
    HELPERS[f"bits_of_f{w}"] = f"""static uint{w}_t bits_of_f{w}({c} x) {{
    union f{w}_bits both;
    both.value = x;
    return both.bits;
}}"""
    HELPERS[f"f{w}_of_bits"] = f"""static {c} f{w}_of_bits(uint{w}_t x) {{
    union f{w}_bits both;
    both.bits = x;
    return both.value;
}}"""
    for word, sign in (("add", "+"), ("sub", "-"), ("mul", "*"), ("div", "/")):
        HELPERS[f"f{w}_{word}"] = f"""typedef char f{w}_{word}_has_no_more_digits[FLT_EVAL_METHOD == 0 ? 1 : -1];
static {c} f{w}_{word}({c} x, {c} y) {{
    volatile {c} result = x {sign} y;
    return result;
}}"""


def helpers(wanted):
    wanted = wanted | {f"f{w}" for w in FLOATS if any(f"f{w}" in helper for helper in wanted)}
    return "".join(text + "\n\n" for title, text in HELPERS.items() if title in wanted)
