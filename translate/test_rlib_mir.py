#!/usr/bin/env python3
"""What rlib_mir.py makes of small made-up mir.json files: each form once, what is printed of several functions, and what is refused."""
import json
import os
import sys
import tempfile
import unittest

sys.dont_write_bytecode = True
sys.path.insert(0, os.path.dirname(os.path.abspath(__file__)))
from instances import Instances, put_in, spelled  # noqa: E402
from mir import Program, Stop  # noqa: E402
from rlib_mir import Body, Functions, chain, declared, of_type, operand, operation, place, value  # noqa: E402

U8, UNIT = {"Int": 8}, {"Opd": "Unit"}
SLICE = {"Struct": ["&[]", [{"Ref": [{"Named": 0}, "Mut", U8]}, {"Int": 64}]]}


def local(k, *steps):
    return {"local": k, "steps": list(steps)}


def copy(k):
    return {"Copy": local(k)}


def exits(n):
    return {"Exit": n}


def param(k):
    return {"Param": k}


def named(name, *arguments):
    return {"Named": [{"name": name, "lifetimes": []}, list(arguments)]}


def given(types=(), dicts=()):
    return {"types": list(types), "dicts": list(dicts)}


def call(path, types=(), dicts=()):
    return {"Call": [{"Fn": [path, given(types, dicts)]}, [copy(1)], local(0)]}


def impl(name, types=(), dicts=()):
    return {"Impl": [name, list(types), list(dicts)]}


def method(of, k, types=(), dicts=()):
    return {"Call": [{"Method": [of, k, given(types, dicts)]}, [copy(1)], local(0)]}


def kind(name, shape, params=0):
    return {"name": name, "type_params": params, "const_params": [], "shape": shape}


def item(*body, types=(), of=U8, params=0, bounds=0, impls=()):
    return {"lifetimes": 0, "params": 1, "types": list(types), "body": list(body),
            "generics": {"types": [{}] * params, "bounds": [{}] * bounds, "impls": list(impls)},
            "locals": [{"ty": "Unit", "home": "ValueLocal"}, {"ty": of, "home": "MemorySlot"}]}


def body(*nodes):
    return Body(list(nodes), Instances())


class Forms(unittest.TestCase):
    def refused(self, why, of, *given):
        with self.assertRaisesRegex(Stop, why):
            of(*given)

    def test_types(self):
        self.assertEqual(of_type(SLICE), '(tyStruct "&[]" (tcons (tyRef erased mut (tyInt 8)) (tcons (tyInt 64) tnil)))')
        self.assertEqual(of_type({"Array": ["Bool", {"Lit": 3}]}), "(tyArray tyBool (lenLit 3))")
        self.assertEqual(of_type(named("a::B")), '(tyNamed (pair "a::B" lnil))')
        self.assertEqual(of_type(named("a::B", U8, {"Const": 7})), '(tyNamed (pair "a::B<u8, 7>" lnil))')
        self.refused("type", of_type, param(0))

    def test_declared_types(self):
        self.assertEqual(declared("a::B", {"Variants": [[], [U8, "Unit"]]}),
                         '(pair "a::B" (variants (ttcons tnil (ttcons (tcons (tyInt 8) (tcons tyUnit tnil)) ttnil))))')
        self.assertEqual(declared("a::B<u8>", {"Fields": [U8]}), '(pair "a::B<u8>" (fields (tcons (tyInt 8) tnil)))')

    def test_names_of_types(self):
        refs = {"Ref": ["Erased", "Imm", "Bool"]}, {"Ref": [{"Named": 1}, "Mut", "Unit"]}
        for node, due in (({"Float": 64}, "f64"), ("Ptr", "ptr"), (refs[0], "ref<bool>"), (SLICE, "mut_slice<u8>"),
                          ({"Array": [refs[1], {"Lit": 3}]}, "array<3, mut_ref<unit>>"),
                          (named("(,)", U8, named("(_,)", U8)), "tuple<u8, tuple<u8>>"), (named("a::f+Self"), "a::f+Self")):
            self.assertEqual(spelled(node), due)
        for node in ({"Vector": [U8, {"Lit": 4}]}, param(0), {"Struct": ["&dyn a::B", ["Ptr", "Ptr"]]}, {"Array": [U8, param(1)]}):
            self.refused("type", spelled, node)

    def test_arguments(self):
        lent = {"Ref": [{"Named": 0}, "Imm", param(1)]}
        self.assertEqual(put_in([lent, {"Given": 0}], [U8, "Bool"], ["d"]), [{"Ref": ["Erased", "Imm", "Bool"]}, "d"])
        self.assertEqual(put_in({"Named": [{"name": "a::B", "lifetimes": ["Static"]}, [param(0)]]}, [U8]), named("a::B", U8))
        for word in ("Array", "Repeat"):
            self.assertEqual(put_in({word: [param(0), param(1)]}, [U8, {"Const": 9}]), {word: [U8, {"Lit": 9}]})
        self.refused("no type argument 1", put_in, param(1), [U8])
        self.refused("no dictionary 0", put_in, {"Given": 0}, [U8])

    def test_places_and_operands(self):
        steps = [{"Deref": U8}, {"Variant": 1}, {"Field": 2}]
        self.assertEqual(place(local(4, *steps)), f"(place 4 {chain('l', ['(deref (tyInt 8))', '(variant 1)', '(field 2)'])})")
        self.assertEqual([operand(x) for x in ("True", copy(1), {"Int": {"width": 8, "value": 7}}, {"Float": {"width": 64, "bits": 5}})],
                         ["true", "(copy (place 1 lnil))", "(int 8 7)", "(float 64 5)"])
        sized = [{"NumOf": [64, {"Const": 9}]}, {"SizeOf": "Bool"}, {"SizeOf": {"Array": [{"Int": 32}, {"Lit": 5}]}}]
        self.assertEqual([operand(x) for x in sized], ["(int 64 9)", "(sizeOf tyBool)", "(sizeOf (tyArray (tyInt 32) (lenLit 5)))"])
        self.refused("operand", operand, {"NumOf": [64, {"Param": 0}]})
        self.refused("a dyn", operand, {"Vtable": [U8, []]})

    def test_values_and_operations(self):
        self.assertEqual([operation(x) for x in ("LeadingZeros", {"Add": "Unsigned"}, {"Cast": ["Signed", "Unsigned", 64]}, {"FloatFromBits": 32})],
                         ["leadingZeros", "(add unsigned)", "(cast signed unsigned 64)", "(floatFromBits 32)"])
        self.assertEqual(value({"Op2": ["WrapAdd", copy(1), copy(2)]}), "(op2 wrapAdd (copy (place 1 lnil)) (copy (place 2 lnil)))")
        self.assertEqual(value({"Repeat": ["False", {"Lit": 9}]}), "(repeat false 9)")
        self.assertEqual(value({"Aggregate": ["Unit", "True"]}), "(aggregate (lcons unit (lcons true lnil)))")
        self.assertEqual(value({"AddrOf": local(1)}), "(addrOf (place 1 lnil))")
        self.refused("value", value, {"Select": ["True", "True", "False"]})

    def test_statements(self):
        put = {"Assign": [local(0), UNIT]}
        text = "(assign (place 0 lnil) (rvOpd unit))"
        self.assertEqual(body("Seq", put, "Seq", "Skip", "Return").whole(), f"(seq {text} (seq skip return))")
        self.assertEqual(body("Seq", "Seq", put, "Skip", "Unreachable").whole(), f"(seq (seq {text} skip) unreachable)")
        self.assertEqual(body("Block", "Loop", {"If": "True"}, exits(1), put).whole(), f"(block (loop (if true (exit 1) {text})))")
        switch = {"Switch": [copy(1), [[2], [0, 1]], False]}
        arms = "(arm (lcons 2 lnil) skip (arm (lcons 0 (lcons 1 lnil)) return {}))"
        self.assertEqual(body(switch, "Skip", "Return").whole(), f"(switch (copy (place 1 lnil)) {arms.format('noDefault')})")
        switch["Switch"][2] = True
        self.assertEqual(body(switch, "Skip", "Return", put).whole(), f"(switch (copy (place 1 lnil)) {arms.format(f'(default {text})')})")
        for nodes, why in ((["Seq", put], "ends within"), ([put, put], "goes on"), ([{"CallV": []}], "statement"),
                           ([{"LendStatic": [local(0), U8, {"Here": 8}]}], "constant")):
            self.refused(why, body(*nodes).whole)

    def test_what_is_lent(self):
        lent = {"LendStatic": [local(1), {"Array": [U8, {"Lit": 2}]}, {"Ints": {"width": 8, "values": [7, 8]}}]}
        self.assertEqual(body(lent).whole(), "(lendStatic (place 1 lnil) (tyArray (tyInt 8) (lenLit 2)) (ints 8 (lcons 7 (lcons 8 lnil))))")
        for count, numbers in ((0, "lnil"), (2, "(lcons 5 (lcons 5 lnil))")):
            lent = {"LendStatic": [local(1), {"Array": [U8, {"Lit": count}]}, {"Repeat": [{"Int": {"width": 8, "value": 5}}, count]}]}
            self.assertEqual(body(lent).whole(), f"(lendStatic (place 1 lnil) (tyArray (tyInt 8) (lenLit {count})) (ints 8 {numbers}))")

        parts = {"Parts": [{"Int": {"width": 8, "value": 1}}, {"Bool": True}, "Unit", {"Repeat": ["Unit", 2]}]}
        self.assertEqual(Body.lent(parts), f"(parts {chain('l', ['(int 8 1)', 'true', 'unit', '(parts (lcons unit (lcons unit lnil)))'])})")

    def test_calls(self):
        due = '(call (direct (fnRef "{}")) (lcons (copy (place 1 lnil)) lnil) (place 0 lnil))'
        for one, called, name in ((call("a::f"), ("a::f", [], []), "a::f"), (call("a::f", [U8], ["d"]), ("a::f", [U8], ["d"]), "a::f<u8>")):
            read = body(one)
            self.assertEqual((read.whole(), read.calls), (due.format(name), [called]))
        for callee in ({"Prim": "Load"}, {"Fork": []}, {"Method": [{"Given": 0}, 0, given()]}):
            self.refused("call", body({"Call": [callee, [], local(0)]}).whole)

    def test_methods(self):
        read = Instances()
        read.learn(item(impls=[{"name": "a::I", "types": [{}], "bounds": [{}], "methods": ["a::I::f", "a::I::g"]}]))
        callee = method(impl("a::I", [U8], ["d"]), 1, ["Bool"], ["e"])["Call"][0]
        self.assertEqual(read.called(callee), ("a::I::g", [U8, "Bool"], ["d", "e"]))
        for node, why in ((method(impl("a::J"), 0), "impl a::J"), (method(impl("a::I", [U8], ["d"]), 2), "no method of a::I 2"),
                          (method(impl("a::I", [U8]), 0), "1 parameters and 1 bounds, and is given 1 and 0")):
            self.refused(why, read.called, node["Call"][0])
        self.refused("a::I is known in two ways", read.learn, item(impls=[{"name": "a::I", "types": [], "bounds": [], "methods": []}]))


class Whole(unittest.TestCase):
    def printed(self, items, *exports):
        with tempfile.NamedTemporaryFile("w", suffix=".json") as file:
            json.dump(items, file)
            file.flush()
            functions = Functions([file.name])
        for path in exports:
            functions.print(path)
        return functions.texts

    def test_what_the_exports_reach_and_no_more(self):
        pair = kind("a::B", {"Fields": [U8]})
        items = [["a::f", item(call("a::g"))], ["a::g", item("Return", types=[pair], of=named("a::B"))], ["a::h", item({"CallV": []})]]
        texts = self.printed(items, "a::f", "a::g")
        self.assertEqual(sorted(texts), ["a::f", "a::g"])
        self.assertIn("(local tyUnit valueLocal) (lcons (local (tyInt 8) memorySlot) lnil)", texts["a::f"])
        program = Program("program " + chain("l", texts.values()) + " none")
        self.assertEqual((sorted(program.functions), program.shape("a::B")), (["a::f", "a::g"], ("fields", [("int", 8)])))

    def test_instances_once_each(self):
        """f calls g<u8> twice and g<bool>; each g calls the method of the impl that it is given, which is at its own type."""
        some = kind("a::Some", {"Variants": [[], [param(0)]]}, params=1)
        impls = [{"name": "a::I", "types": [{}], "bounds": [], "methods": ["a::I::m"]}]
        calls = [call("a::g", [t], [impl("a::I", [t])]) for t in (U8, U8, "Bool")]
        items = [["a::f", item("Seq", calls[0], "Seq", *calls[1:], impls=impls)],
                 ["a::g", item(method({"Given": 0}, 0), of=named("a::Some", param(0)), types=[some], params=1, bounds=1)],
                 ["a::I::m", item("Return", of=named("a::Some", param(0)), types=[some], params=1)]]
        texts = self.printed(items, "a::f")
        self.assertEqual(list(texts), ["a::f", "a::g<u8>", "a::I::m<u8>", "a::g<bool>", "a::I::m<bool>"])
        self.assertIn('(fnRef "a::I::m<bool>")', texts["a::g<bool>"])
        program = Program("program " + chain("l", texts.values()) + " none")
        for name, t in (("u8", ("int", 8)), ("bool", ("bool",))):
            self.assertEqual(program.shape(f"a::Some<{name}>"), ("variants", [[], [t]]))

    def test_two_impls_at_the_same_types(self):
        impls = [{"name": f"a::{name}", "types": [], "bounds": [], "methods": [f"a::{name}::m"]} for name in "IJ"]
        calls = [call("a::g", [U8], [impl(f"a::{name}")]) for name in "IJI"]
        items = [["a::f", item("Seq", calls[0], "Seq", *calls[1:], impls=impls)],
                 ["a::g", item(method({"Given": 0}, 0), params=1, bounds=1)], ["a::I::m", item("Return")], ["a::J::m", item("Return")]]
        texts = self.printed(items, "a::f")
        self.assertEqual(list(texts), ["a::f", "a::g<u8>", "a::I::m", "a::g<u8>+2", "a::J::m"])
        self.assertEqual([texts["a::f"].count(f'"a::g<u8>{end}"') for end in ("", "+2")], [2, 1])

    def test_an_impl_that_is_given_another(self):
        """g<u8> is given I, which is given J or K: I's method calls the one that it was given, and the two are two."""
        impls = [{"name": "a::I", "types": [{}], "bounds": [{}], "methods": ["a::I::m"]}] + [
            {"name": f"a::{name}", "types": [], "bounds": [], "methods": [f"a::{name}::m"]} for name in "JK"]
        calls = [call("a::g", [U8], [impl("a::I", [U8], [impl(f"a::{name}")])]) for name in "JK"]
        items = [["a::f", item("Seq", *calls, impls=impls)], ["a::g", item(method({"Given": 0}, 0), params=1, bounds=1)],
                 ["a::I::m", item(method({"Given": 0}, 0), params=1, bounds=1)], ["a::J::m", item("Return")], ["a::K::m", item("Return")]]
        texts = self.printed(items, "a::f")
        self.assertEqual(list(texts), ["a::f", "a::g<u8>", "a::I::m<u8>", "a::J::m", "a::g<u8>+2", "a::I::m<u8>+2", "a::K::m"])
        for caller, called in (("a::g<u8>", "a::I::m<u8>"), ("a::g<u8>+2", "a::I::m<u8>+2"), ("a::I::m<u8>", "a::J::m"),
                               ("a::I::m<u8>+2", "a::K::m")):
            self.assertIn(f'(fnRef "{called}")', texts[caller])

    def test_functions_that_are_handed_over(self):
        for impls, name in ((["b::a++c++f+FnOnce"], "a::g<unit, a::c::f>"), (["b::Destruct++none", "a::fn::h::any+FnOnce"], "a::g<unit>"),
                            (["b::a++c++f+FnMut", "a::a++c++f+FnOnce", "a::a++e+Fn"], "a::g<unit, a::c::f, a::e>")):
            self.assertEqual(Instances().name("a::g", ["Unit"], list(map(impl, impls))), name)

    def test_a_type_within_a_type(self):
        fields = [{"Array": [named("a::C", param(0)), {"Lit": 2}]}, {"Ref": [{"Bound": 0}, "Imm", named("a::D")]}]
        types = [kind("a::B", {"Fields": fields}, params=1), kind("a::C", {"Fields": [param(0)]}, params=1)]
        text = self.printed([["a::f", item("Return", of=named("a::B", U8), types=types)]], "a::f")["a::f"]
        shapes = [declared("a::C<u8>", {"Fields": [U8]}), declared("a::B<u8>", put_in({"Fields": fields}, [U8]))]
        self.assertTrue(text.endswith(f" {chain('l', shapes)})"))

    def test_types_whose_layout_counts(self):
        """Of a slice's elements, what is lent, and a size; a type that has itself in a slice stands once."""
        slice_of = {"Struct": ["&[]", [{"Ref": ["Erased", "Imm", named("a::B")]}, {"Int": 64}]]}
        types = [kind("a::B", {"Fields": [slice_of]})] + [kind(f"a::{name}", {"Fields": []}) for name in "CDE"]
        lent, size = {"LendStatic": [local(1), named("a::C"), {"Parts": []}]}, {"Opd": {"SizeOf": named("a::D")}}
        nodes = ["Seq", lent, {"Assign": [local(1), size]}]
        text = self.printed([["a::f", item(*nodes, of=slice_of, types=types)]], "a::f")["a::f"]
        self.assertEqual([text.count(f'(pair "a::{name}" (fields') for name in "BCDE"], [1, 1, 1, 0])

    def test_what_is_not_there(self):
        within = named("a::Some", param(0))
        lost = {"Assign": [local(1, {"Deref": named("a::B", U8)}), UNIT]}
        for items, why in (
                ([["a::f", item(call("a::g"))]], "there is no function a::g"), ([["a::f", item({"CallV": []})]], "a::f: the statement"),
                ([["a::f", item(call("a::g", [U8]))], ["a::g", item(call("a::g", [within]), params=1)]], "a::g is called within itself"),
                ([["a::f", item("Return", params=1)]], "a::f: it has 1 parameters and 0 bounds, and is given 0 and 0"),
                ([["a::f", item("Return", of=named("a::B"))]], "a::f: the type a::B is not declared"),
                ([["a::f", item(lost, types=[kind("a::B", {"Fields": []})])]], "a::f: the type a::B<u8> is declared with 0 parameters"),
                ([["a::f", item("Return", of=named("a::B"), types=[kind("a::B", {"Union": []})])]], "a::f: the shape")):
            with self.assertRaisesRegex(Stop, why):
                self.printed(items, "a::f")


if __name__ == "__main__":
    unittest.main()
