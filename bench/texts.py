#!/usr/bin/env python3
"""Compares `wmod build` with wat2wasm of wabt on small texts.

    texts.py [--short] [PROGRAM]      the program of this checkout by default

It makes right and wrong texts for each rule of the text format. Without `--short`, it also makes texts from them with
one token dropped or doubled, or with two tokens swapped. wmod gets each text under profile 2, which has sign extension
and no floats, and under profile 3, which has floats and no sign extension.

A program reads a text if the text writes a module, and accepts it if that module is valid. If both accept a text,
`build` must write the bytes that `canon` makes from the binary of wat2wasm. If only one reads it, or if wat2wasm
writes another float than literals.py finds, a class must explain that.

For each profile the script prints the number of texts of each class, with an example, and then each text that no class
explains. Then it prints each module of stock.bin and of the tree with wasm2wat, and compares what `build` makes of that
text with `canon`. It does the same with modules of later features, under `--features compilers`. It ends with status 1
if a text is unexplained or one of these modules differs. Without wat2wasm it compares nothing, says this and ends with
status 2.
"""
import collections
import itertools
import pathlib
import re
import shutil
import struct
import subprocess
import sys

import literals

HERE = pathlib.Path(__file__).resolve().parent
PROGRAM = HERE.parent / "crates/wm_cli/out/wm_cli"
STOCKS = [HERE / "stock.bin", HERE.parent / "crates/wm_bench/data/small.bin"]
ALONE = [HERE.parent / "examples/add.wasm"]
NAMES = HERE.parent / "crates/wm_syntax/src/instructions/table.rt"
PROFILES = ["2", "3"]
LATER = ["saturating-float-to-int", "simd", "multi-value", "bulk-memory", "reference-types"]
FLAGS = [f"--disable-{feature}" for feature in LATER]
# modules of later features: passive segments with the instructions that name them, and a bit of each other feature
OF_LATER = [
    "0061736d01000000010401600000030201000404017000010503010001090501010001000c01010a29012700410041004100fc080000fc0900410041004100fc0c008000fc0d00410041004100fc0e00000b0b0401010161",
    "0061736d010000000104016000000302010004040170000105030100010904010100000c01010a260124004300000000fc00c01a410011008080808000410041004100fc0a0000fc0900fc0d000b0b03010100",
]
ATOM = r"[0-9A-Za-z!#$%&'*+\-./:<=>?@\\^_`|~]+"
TOKEN = re.compile(r'"(?:[^"\\]|\\.)*"|[()]|' + ATOM)


# Texts of each rule. Right and wrong texts are mixed: the programs decide.


def module(*fields):
    return "(module " + " ".join(fields) + ")" if fields else "(module)"


def body(code, *fields, params=""):
    return module(f"(type $v (func {params}))" if params else "(type $v (func))", *fields, f"(func (type $v) {code})")


def dead(instruction):
    """Returns a body with an instruction between two `unreachable`, where it has all operands that it needs."""
    return body(f"unreachable {instruction} unreachable", "(memory 1)")


def of_modules():
    yield "(module)"
    yield "(module $a)"
    yield "( module\t$a\r\n)"
    yield ""
    yield "(module) (module)"
    yield "(type (func))"


def of_types():
    forms = ["", "(param)", "(param i32)", "(param i32 i64)", "(param $x i32)", "(param $x i32) (param i64 i64)"]
    forms += ["(result i32)", "(result)", "(param) (result) (result i64)", "(param i32) (result i32)"]
    forms += ["(result i32 i32)", "(result i32) (result i32)", "(param $x i32) (param $x i32)", "(param $x i32 i32)"]
    forms += ["(result i32) (param i32)", "(result $x i32)", "(param $x)", "(result) (param)"]
    forms += ["(param f32)", "(param $x f64)", "(result f32)", "(param f32 i32 f64) (result f64)", "(result f32 f64)", "(param f16)"]
    for form in forms:
        yield module(f"(type (func {form}))")
        yield module(f"(type $t (func {form}))")
    yield module("(type $t (func))", "(type $t (func))")
    yield module("(type)")


LIMITS = ["0", "1 2", "0x1 0x_2", "2 1", "1_0", "65536", "65537", "4294967295", "4294967296", "1 2 3", "-1", "+1", "1 0xffff"]


def of_imports():
    kinds = ["(func $f (type $t))", "(func (type 0))", "(func $f (type $t) (param i32) (result i32))"]
    kinds += ["(func (type $t) (param $x i32) (result i32))", "(func (type $t) (param i64))", "(func)", "(func (type 1))"]
    kinds += ["(table $a 1 2 funcref)", "(table 0 funcref)", "(memory $m 1 2)", "(memory 1)"]
    kinds += ["(global $g i32)", "(global i64)", "(global $g (mut i64))", "(global (mut i32))", "(tag)"]
    kinds += ["(global f64)", "(global $g f32)", "(global $g (mut f64))", "(global (mut f32))", "(func (type $t) (param f32))"]
    for kind in kinds:
        yield module("(type $t (func (param i32) (result i32)))", f'(import "a" "b" {kind})')
    yield module("(memory 1)", '(import "a" "b" (global i32))')
    yield module("(type (func))", '(import "a" "b" (global i32))', "(memory 1)")
    yield module("(type $f (func))", '(import "a" "b" (func $f (type $f)))', "(func $f (type $f))")
    yield module('(import "a" "b" (memory 1))', '(import "a" "c" (memory 1))')


def of_functions():
    locals_ = ["", "(local)", "(local i32)", "(local i32 i64) (local i32)", "(local $a i32) (local $b i64)", "(local $a i32 i32)"]
    locals_ += ["(local $x i32)", "(local $a i32) (local $a i32)", "(local i32) (param i32)"]
    locals_ += ["(local f32)", "(local $a f64) (local f32 i32 f64 f64)", "(local $x f32)", "(local f64) (param f32)"]
    for form in locals_:
        yield module("(type $t (func (param i32)))", f"(func (type $t) (param $x i32) {form})")
        yield module("(type $t (func (param i32)))", f"(func $f (type 0) {form})")
    uses = ["(param i32) (param i64) (result i32)", "(param i32 i64) (result i32)", "(param $x i32) (param $y i64) (result i32)"]
    uses += ["(param i32)", "(result i32)", "(param i64 i32) (result i32)", "(param)", "(result)", "(param i32 i64)"]
    for use in uses:
        yield module("(type $t (func (param i32 i64) (result i32)))", f"(func (type $t) {use} i32.const 0)")
    yield module("(func)")
    yield module("(func (result i32) i32.const 0)")
    yield module("(func $f)", "(func $f)")


def of_tables_and_memories():
    for limits in LIMITS:
        yield module(f"(table {limits} funcref)")
        yield module(f"(table $t {limits} funcref)")
        yield module(f"(memory {limits})")
        yield module(f"(memory $m {limits})")
    yield module("(table 1 anyfunc)")
    yield module("(table 1 externref)")
    yield module("(table 1 i32)")
    yield module("(memory 1)", "(memory 1)")
    yield module("(table 1 funcref)", "(table 1 funcref)")


def of_globals():
    for first in ["i32 i32.const 1", "$g i64 i64.const 1", "(mut i32) i32.const 1", "$g (mut i64) i64.const 1"]:
        yield module(f"(global {first})")
    for first in ["f32 f32.const 1", "$g f64 f64.const 1.5", "(mut f32) f32.const -0x1.8p3", "$g (mut f64) f64.const inf"]:
        yield module(f"(global {first})")
    wrong = ["i32", "i32 (i32.const 1)", "i32 i64.const 1", "i32 i32.const 0 i32.const 0", "i32 nop", "i32 global.get 0"]
    wrong += ["f32", "f32 f64.const 1", "f64 f32.const 1", "f32 i32.const 1", "i64 f64.const 1", "f32 f32.const 1 f32.neg"]
    wrong += ["i64 (i64.const 1)", "$g (mut f64) (f64.const 1)", "i32 ()", "i32 (nop)", "i32 (foo)", "i32 (param)", "i32 ((i32.const 1))"]
    wrong += ["i32 (i32.const 1 (i32.const 2))", "i32 (i32.const 1) (i32.const 2)", "i32 (i32.const 1 nop)", "i32 i32.const 1 (nop)"]
    for form in wrong:
        yield module(f"(global {form})")
    yield module('(import "a" "b" (global $g i32))', "(global $h i32 global.get $g)", "(global i32 global.get 0)")
    yield module('(import "a" "b" (global $g i32))', "(global i32 (global.get $g))")
    yield module('(import "a" "b" (global $g (mut i32)))', "(global i32 global.get $g)")
    yield module("(global $g i32 i32.const 0)", "(global i32 global.get $g)")
    yield module("(global $g i32 i32.const 0)", "(global $g i32 i32.const 0)")


def of_exports_and_starts():
    items = ["(type $t (func))", "(func $f (type $t))", "(table $a 1 funcref)", "(memory $m 1)", "(global $g i32 i32.const 0)"]
    for what in ["func $f", "table $a", "memory $m", "global $g", "func 0", "table 0", "memory 0", "global 0x0", "func 1", "func $x", "type 0"]:
        yield module(*items, f'(export "a" ({what}))')
    yield module(*items, '(export "a" (func 0))', '(export "a" (memory 0))')
    yield module('(export "a" (func $f))', *items)
    for x in ["0", "$f", "1", "$x"]:
        yield module(*items, f"(start {x})")
        yield module(f"(start {x})", *items)
    yield module(*items, "(start 0)", "(start 0)")
    yield module("(type (func (param i32)))", "(func $f (type 0))", "(start $f)")


def of_elements_and_data():
    items = ["(type $t (func))", '(import "a" "b" (global $g i32))', "(func $f (type $t))", "(table $a 9 funcref)", "(memory $m 1)"]
    offsets = ["(offset i32.const 0)", "(offset global.get $g)", "(offset global.get 0)"]
    offsets += ["(offset i64.const 0)", "(offset)", "(offset nop)", "(i32.const 0)", "(offset (i32.const 0))", "i32.const 0"]
    offsets += ["(global.get $g)", "(offset (global.get 0))", "()", "(nop)", "(ofset i32.const 0)", "(offset (offset i32.const 0))"]
    offsets += ["(i32.const 0 (i32.const 1))", "(offset (i32.const 0) nop)", "((i32.const 0))"]
    for offset in offsets:
        yield module(*items, f"(elem $a {offset} $f 0 $f)")
        yield module(*items, f"(elem 0 {offset})")
        yield module(*items, f"(elem {offset} func $f $f)")
        yield module(*items, f"(elem $e {offset} $f)")
        yield module(*items, f'(data $m {offset} "a" "b")')
        yield module(*items, f"(data 0 {offset})")
        yield module(*items, f'(data {offset} "a")')
        yield module(*items, f'(data $d {offset} "a")')
    yield module(*items, '(data $d (offset i32.const 0) "a")')
    yield module(*items, '(data 9 (offset i32.const 0) "a")')
    yield module(*items, "(elem (offset i32.const 0) $f)")
    yield module(*items, '(data (offset i32.const 0) "a")')
    yield module(*items, "(elem 0 (offset i32.const 0) func $f)")
    yield module(*items, "(elem (i32.const 0) func)")
    yield module(*items, "(elem func (i32.const 0) $f)")
    yield module(*items, '(data $d "a")')
    yield module(*items, "(data $d (i32.const 0))", "(data $d (i32.const 0))")
    yield module(*items, "(elem $m (i32.const 0) $f)", '(data $a (i32.const 0) "a")')
    yield module(*items, "(elem 0 (offset i32.const 0) 7)")
    yield module("(elem $a (offset i32.const 0) $f)", '(data $m (offset i32.const 0) "")', *(items[:1] + items[2:]))


def of_abbreviations():
    """Yields abbreviations of fields, which `build` does not read. `of_blocks` has those of instructions."""
    type_, function = "(type $v (func))", "(func $f (type $v))"
    for word, form in [("func", "(type $v)"), ("table", "1 funcref"), ("memory", "1"), ("global", "i32 i32.const 0")]:
        for id_ in ["", "$a"]:
            yield module(type_, f'({word} {id_} (export "a") {form})')
            yield module(type_, f'({word} {id_} (import "a" "b") {form.removesuffix("i32.const 0")})')
            yield module(type_, f'({word} {id_} (export "a") (export "b") {form})')
    for id_ in ["", "$a"]:
        yield module(f'(memory {id_} (data "abc"))')
        yield module(type_, function, f"(table {id_} funcref (elem $f $f))")


def plain_names():
    """Returns the names of all instructions, in the order of their opcodes."""
    return [name for name in re.findall(r'=> (?:\{\s*)?b"([^"]+)"', NAMES.read_text(encoding="utf8"))]


OPERANDS = {
    "br": ["0", "1", "$v", "0x0"],
    "br_if": ["0", "1"],
    "br_table": ["0", "0 0", "0 0 0x0", "", "1", "0 $a"],
    "call": ["0", "$f", "1", "7"],
    "call_indirect": ["(type $v)", "(type 0)", "(type 0) (param)", "(type 0) (result)", "", "(type 9)", "(param)", "(type $v) (param $x i32)"],
    "local.get": ["0", "$x", "1", "2", "$y"],
    "local.set": ["0", "$x", "2"],
    "local.tee": ["0", "$x", "2"],
    "global.get": ["0", "$g", "1"],
    "global.set": ["0", "$g", "1"],
    "i32.const": ["0", "-1", "$x", ""],
    "i64.const": ["0", "-1", "$x", ""],
    "f32.const": ["0", "-1.5", "$x", ""],
    "f64.const": ["0", "-1.5", "$x", ""],
}
CLOSED = {"block": "", "loop": "", "if": "", "else": "if", "end": "block"}
MEMARGS = ["", "offset=0", "offset=8", "offset=0x_8", "offset=0x8 align=1", "offset=4294967295", "offset=4294967296", "align=1"]
MEMARGS += ["align=2", "align=4", "align=8", "align=16", "align=0", "align=3", "align=0x1", "align=1 offset=1", "offset=1 offset=1"]
MEMARGS += ["offset= 1", "offset=-1", "offset=+1", "align=-1", "align=", "offset", "offset=1_0 align=1_"]


def of_instructions():
    fields = ["(table 1 funcref)", "(memory 1)", "(global $g (mut i32) i32.const 0)", "(type $v (func (param i32)))"]
    for name in plain_names():
        if name in CLOSED:
            codes = [f"unreachable {CLOSED[name]} {name}" + ("" if name == "end" else " end")]
        else:
            operands = OPERANDS.get(name, MEMARGS if re.search(r"\.(load|store)", name) else ["", "0"])
            codes = [f"unreachable {name} {operand} unreachable" for operand in operands]
        for code in codes:
            yield module(*fields, f"(func $f (type $v) (param $x i32) (local i64) {code})")
    for name in ["i32.foo", "get_local", "i32.wrap/i64", "f32.add", "i32.trunc_f32_s", "i32.reinterpret_f32", "f64.load", "I32.add", "ref.null"]:
        yield dead(name)


def of_floats():
    """Yields bodies in which floats pass through locals, blocks, globals, memory and calls."""
    for ty, other in [("f32", "f64"), ("f64", "f32")]:
        for last in [ty, other, "i32"]:
            function = f"(func (type $v) (param $x {ty}) (param {other}) (local $y {ty}) (local {other} {ty})"
            code = f"local.get $x local.tee $y local.set 4 local.get $y {last}.add)"
            yield module(f"(type $v (func (param {ty} {other}) (result {last})))", function, code)
            yield body(f"block $a (result {ty}) {last}.const 1 br $a end drop")
            yield body(f"i32.const 0 if (result {ty}) {ty}.const 1 else {last}.const 2 end drop")
            yield body(f"{ty}.const 1 {last}.const 2 i32.const 0 select drop")
            yield body(f"global.get $g {last}.neg global.set $g", f"(global $g (mut {ty}) {ty}.const 0)")
            yield body(f"i32.const 0 {ty}.load i32.const 0 {last}.load i32.const 0 {last}.store drop", "(memory 1)")
            yield body(f"{last}.const 1 call $f drop", f"(type $t (func (param {ty}) (result {ty})))", "(func $f (type $t) local.get 0)")
        yield module('(import "a" "b" (global $g ' + ty + "))", f"(global $h {ty} global.get $g)", f"(global {other} global.get 0)")


def of_blocks():
    for word in ["block", "loop"]:
        for id_ in ["", "$a"]:
            for end in ["end", "end $a", "end $b"]:
                yield body(f"{word} {id_} br 0 {end}")
                yield body(f"{word} {id_} (result i32) unreachable {end} drop")
    for id_, other, end in itertools.product(["", "$a"], ["", "else", "else $a", "else $b", "else nop", "else $a nop"], ["end", "end $a", "end $b"]):
        yield body(f"i32.const 0 if {id_} nop {other} {end}")
    yield body("i32.const 0 if (result i32) i32.const 1 else i32.const 2 end drop")
    yield body("i32.const 0 if (result i32) i32.const 1 end drop")
    yield body("i32.const 0 if $a (result i64) i64.const 1 else $a i64.const 2 end $a drop")
    yield body("block $a block $b loop $c br $a br $b br $c br 0 br 1 br 2 br 3 end end end")
    yield body("block $a block $a br $a end $a br $a end $a")
    yield body("block $a end br $a")
    yield body("block br 2 end")
    yield body("block $a block $b i32.const 0 br_table $a $b 0 1 2 $a end end")
    yield body("block i32.const 0 if loop i32.const 1 if br 3 else br 2 end end else block end end end")
    for wrong in ["block", "end", "else", "block else end", "if end", "i32.const 0 if else else end", "block end end", "loop (result) end"]:
        yield body(wrong)
    for form in ["(result i32 i32)", "(result i32) (result i32)", "(param i32)", "(type $v)", "(result f32)", "(result)"]:
        yield body(f"block {form} unreachable end unreachable")
    yield body("(nop)")
    yield body("nop (nop)")
    yield body("(block)")
    yield body("(drop (i32.const 0))")


FLOATS = ["1.0", "1.", "1e3", "0x1p3", "0x.8", "+inf", "inf", "-nan", "nan", "nan:0x1", "-nan:0x1", "nan:1", "1.5.2", "1e"]


def of_numbers():
    digits = ["0", "1", "01", "007", "1_0", "1__0", "_1", "1_", "0x0", "0xF", "0xabcdefABCDEF", "0x_1", "0x1_", "0x", "0X1", "0xg", "1a", "0b1"]
    for bits in (32, 64):
        for n in (2 ** (bits - 1), 2**bits):
            digits += [str(n + d) for d in (-1, 0, 1)] + [hex(n + d) for d in (-1, 0, 1)]
    for sign, number, ty in itertools.product(["", "+", "-", "--"], digits, ["i32", "i64"]):
        yield module(f"(global {ty} {ty}.const {sign}{number})")
    for number in ["+", "-", "1,0", "$1", "1_000_000", *FLOATS]:
        yield module(f"(global i32 i32.const {number})")
    for number in [*digits[:24], "4294967296", "0x100000000"]:
        yield module(f"(memory {number})")
        yield body(f"br {number}")


def beside(width):
    """Returns pairs of n and an exponent: 0, 1, the greatest and the least floats, and numbers close to them."""
    digits, least = literals.FORMATS[width]
    one, most = 1 << digits + 1, -least - 2 * digits
    around = [(0, range(6), least - 1), (one, range(-3, 4), least - 1), (one, range(-3, 4), -digits - 1)]
    around += [(2 * one, range(-5, 2), most)]
    return [(n + d, exponent) for n, places, exponent in around for d in places]


def of_float_literals():
    for width, sign, literal in itertools.product(literals.FORMATS, ["", "+", "-"], literals.FIXED.split()):
        yield module(f"(global f{width} f{width}.const {sign}{literal})")
    for width in literals.FORMATS:
        for n, exponent in beside(width):
            decimal, power = (n << exponent, 0) if exponent >= 0 else (n * 5**-exponent, exponent)
            for literal in [f"0x{n:x}p{exponent}", f"0x{n:x}.001p{exponent}", f"{decimal}e{power}", f"-{decimal}.001e{power}"]:
                yield module(f"(global f{width} f{width}.const {literal})")
        for wrong in ["$x", "f32", "i32.const", '"1"', "( 1 )", "offset=1"]:
            yield module(f"(global f{width} f{width}.const {wrong})")
    for literal in FLOATS:
        yield module(f"(memory {literal})")
        yield body(f"br {literal}")
        yield body(f"i32.const 0 f32.load offset={literal} drop", "(memory 1)")


def data(text):
    return module("(memory 1)", f"(data 0 (offset i32.const 0) {text})")


def named(text):
    return module("(memory 1)", f"(export {text} (memory 0))")


def of_strings():
    for letter in map(chr, range(0x20, 0x7F)):
        yield data(f'"\\{letter}"')
    for byte in range(256):
        yield data(f'"\\{byte:02x}\\{byte:02X}"')
    for code in ["0", "41", "e9", "20AC", "1F600", "10FFFF", "110000", "D7FF", "D800", "DFFF", "E000", "1_0", "_1", "1_", "1__0", "", "000041", "g", "-1"]:
        yield data(f'"\\u{{{code}}}"')
        yield named(f'"\\u{{{code}}}"')
    for code in [0x0, 0x1, 0x9, 0xA, 0xD, 0x1F, 0x20, 0x7E, 0x7F, 0x80, 0x9F, 0xE9, 0x20AC, 0xFEFF, 0x1F600, 0xDC80]:
        yield data(f'"a{chr(code)}b"')
        yield named(f'"a{chr(code)}b"')
    for text in ['""', '"a" "b"', '"a""b"', '"\\', '"', '"a', '"\\4', '"\\4"', '"\\u', '"\\u{41"', '"\\u41"', "'a'", '"(; ;; "', '"\\u{41}\\"\\\\"']:
        yield data(text)
    for text in ['""', '"\\c3\\a9"', '"\\c3"', '"\\ff"', '"\\ed\\a0\\80"', '"\\f0\\9f\\98\\80"', '"\\c0\\80"', '"é\\u{e9}"', "a", "$a", '"a" "b"']:
        yield named(text)


def of_identifiers():
    for letter in map(chr, range(0x21, 0x7F)):
        yield module(f"(type ${letter} (func))", f"(func (type ${letter}))")
        yield module(f"(type $a{letter}b (func))")
    yield module("(type $ (func))")
    yield module("(type $é (func))")
    yield module("(type a (func))")
    yield module(f"(type ${'x' * 300} (func))", f"(func (type ${'x' * 300}))")
    yield module("(type $A (func))", "(type $a (func))", "(func (type $A))")
    yield module("(type $same (func (param i32)))", "(func $same (type $same) (param $same i32) local.get $same drop block $same br $same end $same)")


def of_white_space():
    for space in [" ", "\t", "\n", "\r", "\r\n", ";;\n", ";; a (; \n", "(;;)", "(; a ;)", "(; (; ;) ;)", "(; ; ) ( ;)", "(;é;)", "(;\x01;)", ";;\x7f\n", "(;\udc80;)"]:
        yield f"{space}({space}module{space}({space}memory{space}1{space}){space}){space}"
    for space in [";;", ";; a", ";;\r", ";;é"]:
        yield "(module)" + space
        yield f"(module (memory 1) {space})"
    # The last one is the byte 80, which is not UTF-8.
    for wrong in ["(;", "(; (; ;)", ";)", "(;)", "\x0b", "\x0c", "\xa0", "\ufeff", "\x00", ",", ";", "[", "{", "é", "\udc80"]:
        yield "(module " + wrong + ")"
        yield wrong + "(module)"
    yield "(module(type(func))(func(type 0)i32.const 0drop))"
    yield "(module(type(func))(func(type 0)i32.const 0(;;)drop))"
    yield '(module(memory 1)(export"a"(memory 0)))'
    yield '(module(import"a""b"(memory 1)))'
    yield "(module(memory 1)(data 0(offset i32.const 0)\"a\"))"


RULES = [of_modules, of_types, of_imports, of_functions, of_tables_and_memories, of_globals, of_exports_and_starts]
RULES += [of_elements_and_data, of_abbreviations, of_instructions, of_floats, of_blocks]
# Rules about single tokens. No changed texts are made of them.
SPELLINGS = [of_numbers, of_float_literals, of_strings, of_identifiers, of_white_space]
RULES += SPELLINGS


def changes(tokens, i):
    """Yields the list without this token, with it doubled, and with it and the next one swapped."""
    yield tokens[:i] + tokens[i + 1 :]
    yield tokens[: i + 1] + tokens[i:]
    if i + 1 < len(tokens) and tokens[i] != tokens[i + 1]:
        yield tokens[:i] + [tokens[i + 1], tokens[i]] + tokens[i + 2 :]


def changed(all_texts):
    """Yields texts with one change, at each token whose neighbours are new."""
    places = set()
    for text in all_texts:
        tokens = TOKEN.findall(text)
        for i in range(len(tokens)):
            place = tuple(tokens[max(0, i - 2) : i + 3])
            if place not in places:
                places.add(place)
                yield from map(" ".join, changes(tokens, i))


def texts(short):
    right = [text for rule in RULES for text in rule()]
    made = [] if short else changed(text for rule in RULES if rule not in SPELLINGS for text in rule())
    return list(dict.fromkeys([*right, *made]))


# The answers of both programs to a text, and the reasons for differences.

NAME = "(?:" + "|".join(map(re.escape, plain_names())) + ")"
FIELD = "(?:type|import|func|table|memory|global|export|start|elem|data)"
# Why wmod refuses a text that wat2wasm reads. A pattern matches the tokens, with @ and the refusal's name at its
# offset.
STRICTER = {
    "folded instruction of a body": rf"\( func ((?!\( (global|elem|data) ).)*(\( @Expected|@Expected \() {NAME} ",
    "import, export or contents within a field": r"\( (func|table|memory|global) (\$\S+ )?(\( )?@\w+ (\( )?(export|import|data|funcref) ",
    "no type use": r"\( func (\$\S+ )?(\( )?@Expected |call_indirect (\( )?@Expected ",
    "no word module": rf"^\( @Expected {FIELD} ",
    "later than 1.0": r"data (\$\S+ @Expected \$|@UnknownId )|(block|loop|if) (\$\S+ )?\( @Expected (type|param) |@Expected tag ",
    "no result of a block, or two": r"(block|loop|if) (\$\S+ )?\( result (@Expected \)|[if](32|64) (\) )?@Expected )",
    "constant that is not one instruction": r"@NotConst |(offset|global [if](32|64)) @Expected \) ",
    "type use of no type": "@TypeUse ",
    "table of another type": r"table (\$\S+ )?(\d\S* )+@Expected [if]",
    "index of 2^32 or more": r"@BadInteger (0x\w{9}|\d{10})",
    "plus sign on a number of the upper half": r"@BadInteger \+",
    "control character in a string": r'@BadToken "[^"]*[\x00-\x1f\x7f]',
    "not UTF-8": "@NotUtf8",
    "floating point under profile 2": r"@Float (f32|f64|i(32|64)\.\w+_f)|@BadToken ([+-]?\d[\w.+-]*|[+-](inf|nan\S*)) ",
    "sign extension under profile 3": r"@UnknownWord i(32|64)\.extend(8|16|32)_s ",
}
# Why wat2wasm refuses a text that wmod reads. A pattern matches the text, @ (@@ if tokens touch) and the error message.
LAXER = {
    "underscore in a Unicode escape": r"\\u\{[^}]*_.*@bad escape",
    "no space beside a string": "@@(invalid string token|unexpected token)",
    "data of a memory that is not there, which both refuse": "@memory variable out of range",
    "identifier of an element segment": r"\(\s*elem\s+\$.*@undefined table variable",
}


class Answer:
    """An answer to a text. `binary` is None if it is not accepted; `reads` says whether the text writes a module."""

    def __init__(self, binary, reads, line):
        self.binary, self.reads, self.line = binary, reads, line


def run(words, given):
    done = subprocess.run(words, input=given, stdout=subprocess.PIPE, stderr=subprocess.PIPE, check=False)
    return done.returncode == 0, done.stdout, done.stderr.decode("utf8", "replace")


def built(program, profile, text):
    well, out, complaint = run([program, "build", "--quiet", "--profile", profile, "-"], text)
    line = "" if well else f"{out.decode()}{complaint}".strip()
    return Answer(out if well else None, well or line.startswith("module refused"), line)


def assembled(program, text):
    """Returns the answer of wat2wasm, with its binary in canonical form; none if wmod refuses the binary."""
    words = ["wat2wasm", *FLAGS, "-", "--output=-"]
    well, out, complaint = run(words, text)
    if well:
        well, canonical, _ = run([program, "canon", "--profile", "4", "-"], out)
        return Answer(canonical if well else None, True, "" if well else "its binary is " + canonical.decode().strip())
    return Answer(None, run([*words, "--no-check"], text)[0], "".join(re.findall("error: (.*)", complaint)[:1]))


def refused(text, line):
    """Returns the tokens of a refused text, with @ and the refusal's name at its offset."""
    at, name = re.fullmatch(r"text refused at (\d+) \(\d+:\d+\): (\w+)", line).groups()
    before, after = (TOKEN.findall(part.decode("utf8", "replace")) for part in (text[: int(at)], text[int(at) :]))
    return " ".join([*before, "@" + name, *after, ""])


def touches(text):
    """Whether a string is next to an atom or another string, without a space."""
    tokens = list(TOKEN.finditer(text))
    pairs = [a[0] + b[0] for a, b in zip(tokens, tokens[1:]) if a.end() == b.start()]
    return any('"' in pair and pair[0] not in "()" and pair[-1] not in "()" for pair in pairs)


def complained(text, line):
    return text + (" @@" if touches(text) else " @") + line


def spelled(bits, width):
    """Returns a literal of exactly these bits."""
    digits = literals.FORMATS[width][0]
    power, fraction = divmod(bits % (1 << width - 1), 1 << digits)
    sign = "-" if bits >> width - 1 else ""
    if power == (1 << width - 1 - digits) - 1:
        return sign + (f"nan:0x{fraction:x}" if fraction else "inf")
    # The fraction of an f32 has 23 bits, one less than six hexadecimal digits.
    places = f"{fraction << -digits % 4:0{-(-digits // 4)}x}"
    return f"{sign}0x{min(power, 1)}.{places}p{max(power, 1) + literals.FORMATS[width][1] + digits - 1}"


def exactly(text):
    """Returns the text with each float literal replaced by one of exactly its bits."""

    def replaced(found):
        bits = literals.meaning(found[2], int(found[1]))
        return found[0] if bits is None else f"f{found[1]}.const {spelled(bits, int(found[1]))}"

    return re.sub(rf"f(32|64)\.const\s+({ATOM})", replaced, text.decode("latin1")).encode("latin1")


def found(classes, words):
    return next((name for name, pattern in classes.items() if re.search(pattern, words)), "UNEXPLAINED")


def judged(program, text, own, other):
    """Returns the class of a text, in capital letters if it is an error."""
    if own.line and not re.fullmatch(r"(text refused at \d+ \(\d+:\d+\)|module refused at \d+): \w+", own.line):
        return "NO ANSWER"
    if own.reads and other.reads:
        if own.binary and other.binary and own.binary != other.binary:
            right = assembled(program, exactly(text)).binary == own.binary
            return "wat2wasm alone rounds wrongly" if right else "OTHER BYTES"
        if own.binary != other.binary:
            return "ONE IS INVALID"
        return "both accept, same bytes" if own.binary else "both read, both find it invalid"
    if own.reads:
        return f"wmod alone reads it: {found(LAXER, complained(text.decode('utf8', 'replace'), other.line))}"
    if other.reads:
        return f"wat2wasm alone reads it: {found(STRICTER, refused(text, own.line))}"
    return "both refuse to read"


def stocked(path):
    """Yields the profile and the bytes of each module of a file that stock.py wrote."""
    data, at = path.read_bytes(), 0
    while at < len(data):
        profile, size, entries, *others = struct.unpack_from("<5I", data, at)
        at += 4 * (5 + 4 * entries + sum(others))
        yield str(profile), data[at : at + size]
        at += size


def unlike_printed(program, modules, flags):
    """Returns those modules of which `build` makes other bytes than `canon`, from the text that wasm2wat prints with these
    flags. Each module comes with the options of wmod."""
    unlike = []
    for number, (options, module) in enumerate(modules):
        _, text, complaint = run(["wasm2wat", *flags, "-"], module)
        well, binary, _ = run([program, "build", "--quiet", *options, "-"], text)
        if not well or binary != run([program, "canon", *options, "-"], module)[1]:
            unlike.append(f"module {number}, of {len(module)} bytes {complaint}")
    return unlike


def printed():
    """Yields what the modules are that wasm2wat prints, the modules with the options of wmod, and the flags of wasm2wat."""
    alone = [("1", path.read_bytes()) for path in ALONE]
    yield "modules", [(["--profile", it], module) for it, module in [*alone, *(it for path in STOCKS for it in stocked(path))]], FLAGS
    yield "modules of later features", [(["--features", "compilers"], bytes.fromhex(it)) for it in OF_LATER], []


def main():
    if not shutil.which("wat2wasm"):
        print("texts: wat2wasm is missing, so nothing is compared", file=sys.stderr)
        return 2
    words = [w for w in sys.argv[1:] if not w.startswith("--")]
    program = words[0] if words else str(PROGRAM)
    classes = {profile: collections.defaultdict(list) for profile in PROFILES}
    for text in texts("--short" in sys.argv):
        data = text.encode("utf8", "surrogateescape")
        other = assembled(program, data)
        for profile in PROFILES:
            own = built(program, profile, data)
            classes[profile][judged(program, data, own, other)].append((data, own.line, other.line))
    wrong = [(profile, name) for profile in PROFILES for name in classes[profile] if name.upper() == name or "UNEXPLAINED" in name]
    for profile in PROFILES:
        print(f"under profile {profile}:")
        for name, members in sorted(classes[profile].items(), key=lambda c: -len(c[1])):
            print(f"{len(members):6} {name}" + ("" if name.startswith("both") else f", as {members[0][0].decode(errors='replace')!r}"))
    for profile, name in wrong:
        for member in classes[profile][name]:
            print(f"{name} under profile {profile}: text, wmod, wat2wasm:", *map(repr, member), sep="\n  ")
    for what, modules, flags in printed():
        unlike = unlike_printed(program, modules, flags)
        print(f"{len(modules)} {what} printed by wasm2wat, {len(unlike)} built otherwise", *unlike, sep="\n  ")
        wrong += unlike
    return 1 if wrong else 0


if __name__ == "__main__":
    sys.exit(main())
