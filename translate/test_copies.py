#!/usr/bin/env python3
"""What translate/copies.py makes of C functions, and what it must leave: a copy that is needed, and a parameter that can't be lent."""
import os
import sys
import unittest

sys.dont_write_bytecode = True
sys.path.insert(0, os.path.dirname(os.path.abspath(__file__)))
from copies import fewer  # noqa: E402

TWO = "struct two {\n    struct big f0;\n    struct big f1;\n};\n\n"
TYPES = "struct big {\n    uint64_t f0;\n    uint64_t f1;\n    uint64_t f2;\n};\n\n"
READER = "static uint64_t reader(struct big l1) {\n    uint64_t l0;\n    l0 = l1.f0;\n    return l0;\n}\n"
MAKER = "static struct big maker(void) {\n    struct big l0;\n    l0 = (struct big){.f0 = 1};\n    return l0;\n}\n"
STEP = "static struct big step(struct big l1) {\n    struct big l0;\n    l0 = (struct big){.f0 = l1.f1};\n    return l0;\n}\n"


def caller(*lines, parameters="struct big l1"):
    return f"static uint64_t caller({parameters}) {{\n    uint64_t l0;\n" + "".join(f"    {line}\n" for line in lines) + "    return l0;\n}\n"


def made(*lines, before=READER + MAKER):
    """The statements that are made of a caller's."""
    text = fewer(TYPES + before + caller(*lines))
    return [line.strip() for line in text.split("static uint64_t caller")[1].split("\n")[2:-3]]


class Copies(unittest.TestCase):
    def test_a_copy_goes(self):
        self.assertEqual(made("struct big l2;", "l2 = l1;", "l0 = reader(l2);"), ["l0 = reader(l1);"])

    def test_a_result_is_written_at_once(self):
        self.assertEqual(made("struct big l2;", "struct big l3;", "l2 = maker();", "l3 = l2;", "l0 = reader(l3);", "l0 = reader(l3);"),
                         ["struct big l3;", "l3 = maker();", "l0 = reader(&l3);", "l0 = reader(&l3);"])

    def test_what_is_written_between_is_copied(self):
        lines = ("struct big l2;", "l2 = l1;", "l1.f0 = 7;", "l0 = reader(l2);")
        self.assertEqual(made(*lines), ["struct big l2;", "l2 = l1;", "l1.f0 = 7;", "l0 = reader(&l2);"])

    def test_what_is_read_between_isnt_written_early(self):
        lines = ("struct big l2;", "struct big l3;", "l3 = maker();", "l2 = maker();", "l0 = reader(l3);", "l3 = l2;", "l0 = reader(l3);")
        self.assertEqual(made(*lines)[3], "l2 = maker();")

    def test_what_is_lent_is_copied(self):
        lines = ("struct big l2;", "unsigned char *l4;", "l2 = l1;", "l4 = (unsigned char *)&l1;", "l0 = reader(l2);")
        self.assertIn("l2 = l1;", made(*lines))
        self.assertIn("l2 = *l1;", made("struct big l2;", "l2 = l1;", "l4 = (unsigned char *)&l2;"))

    def test_a_loop_is_left(self):
        lines = ("struct big l2;", "l2 = l1;", "for (;;) {", "    l0 = reader(l2);", "    l1 = maker();", "}")
        self.assertIn("l2 = l1;", made(*lines))

    def kept(self, *lines, copy="l3 = l2;", before=READER + MAKER):
        """The copy of what is made at once stays where it is."""
        lines = ("struct big l2;", "struct big l3;", "l3 = maker();", *lines, "l0 = reader(l3);")
        self.assertIn(copy, made(*lines, before=before))
        self.assertEqual(len(made(*lines, before=before)), len(lines))

    def test_a_copy_under_a_condition_is_made_there(self):
        self.kept("l2 = maker();", "if (l0) {", "    l3 = l2;", "}")
        self.kept("l2 = maker();", "if (l0) {", "    l0 = UINT64_C(1);", "} else {", "    l3 = l2;", "}")
        self.kept("l2 = maker();", "switch (l0) {", "case 0:", "    l3 = l2;", "    break;", "default:", "    break;", "}")
        self.kept("l2 = maker();", "{", "    l3 = l2;", "}")

    def test_a_copy_in_another_arm_is_made_there(self):
        self.kept("switch (l0) {", "case 0:", "    l2 = maker();", "    break;", "default:", "    l3 = l2;", "    break;", "}")
        self.kept("if (l0) {", "    l2 = maker();", "} else {", "    l3 = l2;", "}")
        self.kept("if (l0) {", "    l2 = maker();", "}", "if (l0) {", "    l3 = l2;", "}")

    def test_a_copy_behind_a_way_past_the_write_is_made_there(self):
        """In a loop l2 may be an earlier turn's, where l3 is a later one's."""
        arms = ("switch (l0) {", "case 0:", "    l2 = maker();", "    break;", "default:", "    END", "}")
        ends = [[line.replace("END", end) for line in arms] for end in ("break;", "return l0;")]
        self.kept(*ends[0], "l3 = l2;")
        self.kept("for (;;) {", *("    " + line for line in ends[0]), "    l3 = l2;", "}")
        self.kept("if (l0) {", "    l2 = maker();", "}", "l3 = l2;")
        self.kept("switch (l0) {", "case 0:", "    l2 = maker();", "    return l0;", "default:", "    break;", "}", "l3 = l2;")
        self.kept("switch (l0) {", "case 0:", "    if (l0) {", "        l2 = maker();", "    }", "    break;", "default:", "    return l0;",
                  "}", "l3 = l2;")
        lines = ("struct big l2;", "struct big l3;", *ends[1], "l3 = l2;", "l0 = reader(l3);", "l0 = reader(l3);")
        self.assertEqual(made(*lines)[3], "l3 = maker();")
        self.assertNotIn("l3 = l2;", made(*lines))

    def test_a_copy_behind_a_label_or_a_jump_is_made_there(self):
        self.kept("l2 = maker();", "done_1:;", "l3 = l2;")
        self.kept("l2 = maker();", "if (l0) {", "    goto done_1;", "}", "l3 = l2;", "done_1:;")
        self.kept("l2 = maker();", "for (;;) {", "    l3 = l2;", "}")

    def test_a_return_between_leaves_what_is_written_at_once(self):
        lines = ("struct big l2;", "struct big l3;", "l2 = maker();", "if (l0) {", "    return l0;", "}", "l3 = l2;", "l0 = reader(l3);",
                 "l0 = reader(l3);")
        self.assertEqual(made(*lines)[1], "l3 = maker();")

    def test_a_result_isnt_written_over_what_is_lent(self):
        self.kept("l4 = (unsigned char *)&l3;", "l2 = maker();", "l3 = l2;")
        self.kept("l2 = maker();", "l3 = l2;", "l4 = (unsigned char *)&l3;")

    def test_an_argument_isnt_written_early(self):
        self.kept("l2 = step(l3);", "l3 = l2;", before=READER + MAKER + STEP)

    def test_a_part_that_is_written_between_is_copied(self):
        for write in ("l1.f0 = maker();", "l1 = maker_of_two();"):
            lines = ("struct big l2;", "l2 = l1.f0;", write, "l0 = reader(l2);")
            text = fewer(TYPES + TWO + READER + MAKER + caller(*lines, parameters="struct two l1"))
            self.assertIn("    l2 = l1.f0;\n", text)

    def test_what_is_written_where_it_is_read_is_copied(self):
        lines = ("struct big l2;", "struct big l3;", "l3 = maker();", "l2 = l3;", "l3 = step(l2);", "l0 = reader(l3);")
        self.assertIn("l2 = l3;", made(*lines, before=READER + MAKER + STEP))

    def test_what_is_read_in_a_half_or_behind_a_return_is_copied(self):
        for way in (("if (l0) {", "    l0 = reader(l2);", "}"), ("done_1:;", "l0 = reader(l2);"),
                    ("if (l0) {", "    return l0;", "}", "l0 = reader(l2);")):
            self.assertIn("l2 = *l1;", made("struct big l2;", "l2 = l1;", *way))

    def test_what_is_read_twice_is_copied(self):
        self.assertIn("l2 = *l1;", made("struct big l2;", "l2 = l1;", "l0 = reader(l2);", "l0 = reader(l2);"))
        self.assertIn("l2 = *l1;", made("struct big l2;", "l2 = l1;", "l0 = two(l2, l2);"))

    def test_a_parameter_is_lent(self):
        text = fewer(TYPES + READER + caller("l0 = reader(l1);"))
        self.assertIn("static uint64_t reader(const struct big *l1) {\n    uint64_t l0;\n    l0 = l1->f0;", text)
        self.assertIn("static uint64_t caller(const struct big *l1) {\n    uint64_t l0;\n    l0 = reader(l1);", text)

    def test_a_parameter_that_is_written_is_given(self):
        writer = READER.replace("    l0 =", "    l1.f0 = 3;\n    l0 =")
        self.assertEqual(made("l0 = reader(l1);", before=writer), ["l0 = reader(*l1);"])

    def test_what_a_caller_lends_is_given(self):
        lines = ("unsigned char *l4;", "l4 = (unsigned char *)&l1;", "l0 = reader(l1);")
        self.assertIn("l0 = reader(l1);", made(*lines))
        self.assertIn("l0 = reader(l1);", made("l0 = reader(l1);", "l4 = (unsigned char *)&l1.f2;"))

    def test_one_caller_that_lends_it_keeps_it_from_all(self):
        other = caller("l4 = (unsigned char *)&l1;", "l0 = reader(l1);").replace("caller", "other")
        self.assertEqual(made("l0 = reader(l1);", before=READER + other), ["l0 = reader(*l1);"])

    def test_a_parameter_that_is_lent_on_is_given(self):
        lender = READER.replace("    l0 =", "    l2 = (unsigned char *)&l1.f1;\n    l0 =")
        self.assertEqual(made("l0 = reader(l1);", before=lender), ["l0 = reader(*l1);"])

    def test_what_lies_behind_an_address_is_given(self):
        """At each depth of parentheses: the call is seen."""
        for value in ("(*(struct big *)l4)", "(*(struct two *)(*(unsigned char **)l4)).f1", "maker()", "(struct big){.f0 = 1}"):
            text = fewer(TYPES + READER + MAKER + caller("l0 = reader(l1);", f"l0 = reader({value});"))
            self.assertIn("reader(struct big l1)", text)
            self.assertIn(f"l0 = reader({value});", text)

    def test_the_other_arguments_of_a_call_may_be_any(self):
        two = READER.replace("reader(struct big l1)", "two(struct big l1, double l2)")
        for value in ("f64_of_bits(UINT64_C(7))", "(*(double *)(*(unsigned char **)l4))"):
            self.assertEqual(made(f"l0 = two(l1, {value});", before=two), [f"l0 = two(l1, {value});"])
            self.assertEqual(made("l5 = maker();", f"l0 = two(l5, {value});", before=two)[1], f"l0 = two(&l5, {value});")

    def test_a_result_in_the_place_of_its_argument(self):
        """C has the whole result before it writes any of it."""
        lines = ("struct big l2;", "l2 = maker();", "l2 = step(l2);", "l0 = reader(l2);")
        self.assertEqual(made(*lines, before=READER + MAKER + STEP)[1:], ["l2 = maker();", "l2 = step(&l2);", "l0 = reader(&l2);"])

    def test_one_struct_twice_and_parts(self):
        two = READER.replace("reader(struct big l1", "two(struct big l1, struct big l2").replace("l1.f0", "(uint64_t)(l1.f0 + l2.f1)")
        text = fewer(TYPES + TWO + two + caller("l0 = two(l1.f1, l1.f1);", "l0 = two(l1.f0, l1.f1);", parameters="struct two l1"))
        self.assertIn("l0 = (uint64_t)(l1->f0 + l2->f1);", text)
        self.assertIn("    l0 = two(&l1->f1, &l1->f1);\n    l0 = two(&l1->f0, &l1->f1);\n", text)
        self.assertEqual(made("l0 = two(l1, l1);", before=two), ["l0 = two(l1, l1);"])

    def test_an_export_takes_what_it_took(self):
        text = fewer(TYPES + READER + caller("l0 = reader(l1);").replace("static ", ""))
        self.assertIn("uint64_t caller(struct big l1) {\n    uint64_t l0;\n    l0 = reader(&l1);", text)


if __name__ == "__main__":
    unittest.main()
