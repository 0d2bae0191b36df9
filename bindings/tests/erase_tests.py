"""What bindings/erase cuts, what it leaves, and what it refuses."""

import contextlib
import importlib.machinery
import importlib.util
import io
import os
import tempfile
import unittest
from unittest import mock

HERE = os.path.dirname(os.path.abspath(__file__))


def load():
    """The script as a module: its name has no ending."""
    loader = importlib.machinery.SourceFileLoader("erase", os.path.join(HERE, "..", "erase"))
    module = importlib.util.module_from_spec(importlib.util.spec_from_loader("erase", loader))
    loader.exec_module(module)
    return module


tool = load()


def erased(text, crate="some"):
    """The text that is left, without the spaces at the ends of lines and without empty lines."""
    lines = tool.erase(text, "some.rt", crate).result().split("\n")
    return "\n".join(line.rstrip() for line in lines if line.strip())


class Cuts(unittest.TestCase):
    def test_clauses_go(self):
        text = "fn f(x: u64) -> u64\n    requires { x ≡ 1 }\n    ensures* it { (λ n. {n}) result ≡ x }\n{ x }"
        self.assertEqual(erased(text), "fn f(x: u64) -> u64\n{ x }")

    def test_clauses_of_closures_and_traits_go(self):
        text = "let f = move || -> u64\n requires { a ≡ 1 }\n ensures { b } { 1 };\ntrait T { fn g(&self) requires one { x } ensures { y }; }"
        self.assertEqual(erased(text), "let f = move || -> u64\n  { 1 };\ntrait T { fn g(&self)  ; }")

    def test_ghosts_go_with_what_is_said_of_them(self):
        text = (
            "pub struct S {\n    /// The place.\n    pub at: u64,\n    /// Where it is.\n    pub ghost valid: { 0 < at } by { it-prop },\n"
            "    pub(crate) ghost more: { ℕ },\n}\nimpl T for S {\n    ghost use A.{◌≡◌, b};\n    // of a call\n"
            "    ghost step = { λ a. {b} };\n    ghost may: { ℕ } = { λ a. b };\n    type X = u64;\n}\npub ghost use A as b;\nfn f<Y>()\n    ghost g: { X → Y }\n{}"
        )
        want = (
            "pub struct S {\n    /// The place.\n    pub at: u64,\n}\nimpl T for S {\n    // of a call\n    type X = u64;\n}\nfn f<Y>()\n{}"
        )
        self.assertEqual(erased(text), want)

    def test_attributes_derives_and_bounds_of_the_prover_go(self):
        text = (
            "#![tactic(auto)]\n#[tactic(auto, using(a::b))]\n#[inline]\n#[derive(Debug, Drop)]\nstruct A;\n#[derive(Drop)]\nstruct B;\n"
            "trait C: Send + Drop {}\ntrait D: Drop + Send {}\nfn f<T: Drop>() {}\n#[cycle(x)]\nfn g() {}"
        )
        want = (
            "#[inline]\n#[derive(Debug)]\nstruct A;\nstruct B;\ntrait C: Send  {}\ntrait D:  Send {}\nfn f<T: >() {}\nfn g() {}"
        )
        self.assertEqual(erased(text), want)

    def test_models_and_drops_of_parts_go(self):
        text = (
            "/// Said of the model.\nimpl<'a, T: X<Y>> Model for S<'a, T> {\n    ghost view = { λ s. s.x };\n}\n"
            "impl<W: X> Drop for P<W> {\n    fn drop(self) {\n        match self {\n            P::A(it) => drop(it),\n            P::B(it) => drop(it),\n        }\n    }\n}\n"
            "impl Drop for Q {\n    fn drop(self) {\n        let Q { a: _, b } = self;\n        drop(b);\n    }\n}\nstruct R;"
        )
        self.assertEqual(erased(text), "struct R;")

    def test_tests_go(self):
        text = "#[cfg(test)]\nmod tests;\n#[cfg(test)]\n#[inline]\nfn f() { {} }\nmod kept;"
        self.assertEqual(erased(text), "mod kept;")
        self.assertEqual(tool.erase(text).modules, ["kept"])

    def test_tests_of_callers_stay(self):
        text = (
            "#[cfg(test)]\nmod tests;\n#[test]\n#[tactic(auto)]\nfn f(\n    rt: HostRuntime,\n) -> Result<(), Fail>\n    ensures { x }\n{\n"
            '    assert_eq!(rt; g(rt.alloc())?, 1);\n    h().expect(&rt, "h");\n    k(&rt).expect(rt, "k");\n    Ok(())\n}\n#[test]\nfn g() {}'
        )
        want = (
            "#[cfg(test)]\nmod tests;\n#[test]\nfn f(\n)\n{ let rt = rattle_std::HostRuntime::new(); "
            "rattle_std::test::Passes::passes((move || -> Result<(),Fail> {\n"
            '    assert_eq!( g(rt.alloc())?, 1);\n    h().expect( "h");\n    k(&rt).expect( "k");\n    Ok(())\n})()) }\n#[test]\n'
            "fn g() { rattle_std::test::Passes::passes((move ||  {})()) }"
        )
        self.assertEqual(erased(text, "uses_some"), want)

    def test_clauses_whose_text_holds_brackets_in_strings_and_chars_go(self):
        text = "fn f()\n    requires a { it ≡ '{' }\n    ensures b { it ≡ \"}\" /* } /* } */ } */ } // }\n{ g('}', b'{', \"{\", r#\"\"}\"#) }"
        self.assertEqual(erased(text), "fn f()\n     // }\n{ g('}', b'{', \"{\", r#\"\"}\"#) }")

    def test_clauses_of_a_closure_with_moves_and_patterns_go(self):
        text = "f(|(a, b): (u64, u64)| -> bool requires { a < b } ensures two { result ≡ true } { a < b }, |x| x)"
        self.assertEqual(erased(text), "f(|(a, b): (u64, u64)| -> bool   { a < b }, |x| x)")

    def test_items_of_tests_go_up_to_their_end(self):
        text = (
            "#[cfg(test)]\nuse a::{b, c};\n#[cfg(test)]\npub(crate) const X: S = S { a: { 1 } };\n#[cfg(test)]\nconst fn f() -> u8 { 1 }\n"
            "#[cfg(test)]\npub struct T(u8);\n#[cfg(test)]\nimpl A for T { const B: u8 = 1; }\nstruct R;"
        )
        self.assertEqual(erased(text), "struct R;")

    def test_promises_in_code_go(self):
        text = "fn f() {\n    prove!(a < b);\n    prove_eq!(a, (b));\n    g();\n}\nconst _: () = prove!(X == 1);"
        self.assertEqual(erased(text), "fn f() {\n    g();\n}")

    def test_std_is_the_stand_in(self):
        text = 'use std::mem;\nuse crate::std::a;\nlet v = vec![in alloc; 0u64; 3]?;\nformat!(in rt.alloc(); "{x}")?;\neprintln!(rt; "std::x");\nv.iter().collect(alloc)?; v.collect();'
        want = (
            "use rattle_std::mem;\nuse crate::std::a;\nlet v = rattle_std::vec_in![ alloc; 0u64; 3]?;\n"
            'rattle_std::format_in!( rt.alloc(); "{x}")?;\nrattle_std::eprintln_to!(rt; "std::x");\nv.iter().collect_in(alloc)?; v.collect();'
        )
        self.assertEqual(erased(text), want)

    def test_std_is_the_stand_in_from_the_root_too(self):
        text = "let a = ::std::mem::take(x);\nuse ::std::mem;\nlet b = <T as std::A>::std::c;\nf::<::std::B>();"
        want = "let a = ::rattle_std::mem::take(x);\nuse ::rattle_std::mem;\nlet b = <T as rattle_std::A>::std::c;\nf::<::rattle_std::B>();"
        self.assertEqual(erased(text), want)

    def test_main_gets_the_runtime(self):
        source = tool.erase("fn main(rt: HostRuntime) -> ExitCode { x }")
        framed = tool.with_frame(source, True)
        self.assertIn("fn main_with(rt: HostRuntime)", framed)
        self.assertIn("fn main() -> ExitCode { rattle_std::end_at_panics(); main_with(", framed)
        framed = tool.with_frame(tool.erase("fn main(rt: HostRuntime) {}"), True)
        self.assertIn("fn main()  { rattle_std::end_at_panics(); main_with(", framed)


class Leaves(unittest.TestCase):
    def test_words_in_strings_and_comments_stay(self):
        text = (
            'let a = "requires { x } ghost y: {";\nlet b = r#"ensures "{" ≡"#;\nlet c = b"std::\\"{";\n// requires { no end\n'
            "/* ghost use /* nested { */ ; */\nlet d = '{';\nlet e = '\\'';\nlet f = b'\"';\n'outer: loop { break 'outer; }\nlet g = '≡';"
        )
        self.assertEqual(erased(text), text)

    def test_raw_strings_of_every_kind_stay(self):
        text = (
            'let a = r"requires \\";\nlet b = br"ensures { \\";\nlet c = cr"ghost \\";\nlet d = r##"a "# requires { "##;\n'
            'let e = br#"" } "#;\nlet f = cr#"" } "#;\nlet g = c"\\" }";\nlet h = r"";\nlet i = "\\\\";\nlet j = "two\n  requires lines {";'
        )
        self.assertEqual(erased(text), text)

    def test_raw_names_stay(self):
        text = "let r#requires = r#ghost + r#ensures;\nr#type.r#match();\nlet r = r#fn;"
        self.assertEqual(erased(text), text)

    def test_chars_and_labels_stay(self):
        text = (
            "m('{', '}', '(', '\\\\', '\\'', '\"', '\\n', '\\x7b', '\\u{7b}', b'\\\\', b'\\'', b'}', '≡', ' ');\n"
            "fn f<'a, 'b: 'a>(x: &'a str, y: &'_ u8) -> &'static str { 'c: loop { break 'c 'x' } }"
        )
        self.assertEqual(erased(text), text)

    def test_comments_that_nest_stay(self):
        text = "/* a /* requires { */ /** ghost use */ \" */\n// \" requires {\n/// it's {\nfn f() {} // '{' */ ghost\n/**/ fn g() {}"
        self.assertEqual(erased(text), text)

    def test_what_a_file_says_of_itself_stays(self):
        text = "//! The head.\n\nghost use A.{b};\n/// Of the ghosts.\npub ghost use B as c;\nfn f() {}"
        self.assertEqual(erased(text), "//! The head.\nfn f() {}")

    def test_lines_keep_their_numbers(self):
        text = "ghost use A.{\n    b,\n};\nfn f()\n    ensures {\n x\n }\n{}\n"
        left = tool.erase(text).result()
        self.assertEqual(left.count("\n"), text.count("\n"))
        self.assertEqual(left.split("\n")[3], "fn f()")
        self.assertEqual(left.split("\n")[7], "{}")

    def test_documentation_stays(self):
        text = "//! The head.\n/// What f does.\n#[tactic(auto)]\nfn f() {}"
        self.assertEqual(erased(text), "//! The head.\n/// What f does.\nfn f() {}")

    def test_the_frame_adds_no_line_before_the_end(self):
        source = tool.erase("//! The head.\n\nfn f() {}\n")
        self.assertEqual(tool.with_frame(source, False), "//! The head.\n\nuse rattle_std::prelude::*; fn f() {}\n")


class Refuses(unittest.TestCase):
    def refused(self, text, line, why, crate="some"):
        with self.assertRaises(tool.Refused) as caught:
            tool.erase(text, "some.rt", crate)
        self.assertIn(f"some.rt:{line}: ", str(caught.exception))
        self.assertIn(why, str(caught.exception))

    def test_what_is_left_of_a_contract(self):
        self.refused("fn f() {}\nlet a ≡ b;", 2, "≡ is left")
        self.refused("fn f(ℕ: u64) {}", 1, "ℕ is left")
        self.refused("fn f()\n    requires x;", 2, "a clause that has no block")
        self.refused("let a = 1;\nghost let b = 2;", 2, "a ghost item that is not known")
        self.refused("f(prove!(x))", 1, "no statement")
        self.refused("use a::tactic;", 1, "tactic is left")

    def test_what_it_does_not_know(self):
        self.refused("#[repr(C)]\nstruct A;", 1, "the attribute repr")
        self.refused("\n#[derive(Clone, Serialize)]\nstruct A;", 2, "the derive Serialize")
        self.refused("#[cfg(unix)]\nfn f() {}", 1, "a cfg other")
        self.refused("fn f() { unsafe { g() } }", 1, "an unsafe")
        self.refused("unsafe impl<Y> Send for Noted<Y> {}", 1, "an unsafe")
        self.refused("let v = vec![1, 2];", 1, "vec! without memory")
        self.refused("use a::Drop;", 1, "the word Drop")
        self.refused("#[test]\nfn f(n: u64) {}", 2, "something else than the runtime")

    def test_items_that_do_not_end_where_they_stand(self):
        self.refused("struct S {\n    #[cfg(test)]\n    probe: u64,\n    rest: u64,\n}\nfn g() {}", 5, "an item that does not end")
        self.refused("fn f() { ghost use A }\nfn g() {}", 1, "an item that does not end")
        self.refused("prove!;", 1, "no statement")

    def test_other_crates_of_rust(self):
        self.refused("use core::mem;", 1, "a path of the crate core")
        self.refused("let a = ::alloc::vec::Vec::new();", 1, "a path of the crate alloc")
        self.refused("use std as s;", 1, "the crate std as a whole")
        self.refused("extern crate std;", 1, "the crate std as a whole")

    def test_a_model_with_code(self):
        self.refused("struct S;\nimpl Model for S {\n    ghost view = { x };\n    fn f() {}\n}", 2, "more than ghosts")

    def test_a_clause_without_its_block(self):
        self.refused("fn f()\n    ensures it\n    requires { x } {}", 2, "a clause that has no block")
        self.refused("let a = S { requires: 1 };", 1, "a clause that has no block")

    def test_a_drop_that_does_something(self):
        text = "impl Drop for A {\n    fn drop(self) {\n        let A { n } = self;\n        close(n);\n    }\n}"
        self.refused(text, 1, "has work of its own")
        self.refused(text.replace("close(n)", "n.drop()"), 1, "has work of its own")

    def test_what_is_not_closed(self):
        self.refused("fn f() {", 1, "not closed")
        self.refused("fn f() )", 1, "nothing opened")
        self.refused('let a = "x;', 1, "does not end")
        self.refused("/* /* */", 1, "does not end")

    def test_what_the_lists_allow(self):
        self.assertEqual(erased("unsafe impl<Y> Send for Noted<Y> {}", "lock_book"), "unsafe impl<Y> Send for Noted<Y> {}")
        self.assertEqual(erased("impl<T> Drop for Closed<T> { fn drop(self) { self.go(); } }", "lock_book"), "")


class Workspaces(unittest.TestCase):
    def workspace(self, folder, files):
        for path, text in files.items():
            path = os.path.join(folder, path)
            os.makedirs(os.path.dirname(path), exist_ok=True)
            with open(path, "w", encoding="utf-8") as file:
                file.write(text)

    def test_crates_come_lowest_first(self):
        crates = {"high": ["low", "csv"], "low": ["atomic_table"], "other": []}
        self.assertEqual(tool.wanted(crates, ("high",)), ["low", "high"])
        with self.assertRaises(tool.Refused):
            tool.wanted({"high": ["nowhere"]}, ("high",))

    def test_files_are_found_by_their_modules(self):
        with tempfile.TemporaryDirectory() as folder:
            self.workspace(
                folder,
                {
                    "crates/low/src/lib.rt": "mod part;\n#[cfg(test)]\nmod tests;\n",
                    "crates/low/src/part.rt": "mod deep;",
                    "crates/low/src/part/deep.rt": "fn f() requires { x } {}",
                    "crates/low/src/tests.rt": "no rust at all ≡",
                },
            )
            files = tool.erase_crate("low", folder)
            self.assertEqual(sorted(files), ["lib.rs", "part.rs", "part/deep.rs"])

    def test_modules_of_the_binding_are_added_where_they_are_to_be(self):
        with tempfile.TemporaryDirectory() as folder:
            self.workspace(folder, {"crates/region_words/src/lib.rt": "mod region;", "crates/region_words/src/region.rt": "fn f() {}\n"})
            files = tool.erase_crate("region_words", folder)
            self.assertEqual(sorted(files), ["lib.rs", "region.rs", "region/mapped.rs", "region/slices.rs"])
            where = f"#[cfg({tool.WITH_MAPPINGS})]\n"
            self.assertTrue(files["region.rs"].endswith(f"fn f() {{}}\n\nmod slices;\n\n{where}mod mapped;\n"))
            self.workspace(folder, {"crates/region_words/src/lib.rt": "fn f() {}"})
            with self.assertRaises(tool.Refused):
                tool.erase_crate("region_words", folder)

    def test_a_variant_is_its_source_with_each_change_made_once(self):
        with tempfile.TemporaryDirectory() as folder, mock.patch.object(tool, "VARIANTS", {"high": ("low", (("lib.rs", "u64", "u32"),))}):
            self.workspace(folder, {"crates.txt": "low:\n", "crates/low/src/lib.rt": "fn f() -> u64 requires { x } { 0 }"})
            self.assertEqual(tool.read_crates(os.path.join(folder, "crates.txt")), {"low": [], "high": []})
            self.assertIn("fn f() -> u64", tool.erase_crate("low", folder)["lib.rs"])
            self.assertIn("fn f() -> u32", tool.erase_crate("high", folder)["lib.rs"])
            for other in ("fn f() -> u8 { 0 }", "fn f(n: u64) -> u64 { n }"):
                self.workspace(folder, {"crates/low/src/lib.rt": other})
                with self.assertRaises(tool.Refused):
                    tool.erase_crate("high", folder)

    @mock.patch.object(tool, "VARIANTS", {})
    def test_where_one_is_refused_nothing_is_written(self):
        with tempfile.TemporaryDirectory() as folder:
            files = {"crates.txt": "".join(f"{root}:\n" for root in tool.ROOTS)}
            files |= {f"crates/{root}/src/lib.rt": "fn f() {}" for root in tool.ROOTS}
            files[f"crates/{tool.ROOTS[-1]}/src/lib.rt"] = "fn f() ≡ {}"
            self.workspace(folder, files)
            out = os.path.join(folder, "out")
            with self.assertRaises(tool.Refused):
                tool.make_workspace(out, folder)
            self.assertFalse(os.path.exists(out))
            self.workspace(folder, {f"crates/{tool.ROOTS[-1]}/src/lib.rt": "fn f() {}"})
            tool.make_workspace(out, folder)
            self.assertEqual(sorted(os.listdir(os.path.join(out, "crates"))), sorted(tool.ROOTS))

    @mock.patch.object(tool, "VARIANTS", {})
    def test_only_what_an_earlier_run_made_is_removed(self):
        with tempfile.TemporaryDirectory() as folder:
            files = {"crates.txt": "".join(f"{root}:\n" for root in tool.ROOTS)}
            files |= {f"crates/{root}/src/lib.rt": "fn f() {}" for root in tool.ROOTS}
            self.workspace(folder, files | {"crates/other/src/lib.rt": ""})
            with self.assertRaises(tool.Refused):
                tool.make_workspace(folder, folder)
            self.assertTrue(all(os.path.exists(os.path.join(folder, path)) for path in [*files, "crates/other/src/lib.rt"]))
            self.workspace(folder, {"out/crates/former/Cargo.toml": "", f"out/crates/{tool.ROOTS[0]}/Cargo.toml": ""})
            tool.make_workspace(os.path.join(folder, "out"), folder)
            self.assertEqual(sorted(os.listdir(os.path.join(folder, "out", "crates"))), sorted(tool.ROOTS))

    def test_options_are_refused(self):
        with contextlib.redirect_stderr(io.StringIO()):
            self.assertEqual((tool.main(["--help"]), tool.main(["a", "b"])), (2, 2))


class Bundles(unittest.TestCase):
    def test_paths_lead_to_the_modules_of_the_package(self):
        text = "use low::Thing;\nuse crate::own;\npub(crate) fn f(x: low::Other) -> u64 { a.low::<u8>(); $crate::low::g() }"
        self.assertEqual(
            tool.in_bundle(text, "high", ["high", "low"]),
            "use crate::parts::low::Thing;\nuse crate::parts::high::own;\n"
            "pub(crate) fn f(x: crate::parts::low::Other) -> u64 { a.low::<u8>(); $crate::parts::high::low::g() }",
        )

    def test_the_library_keeps_its_own_paths(self):
        self.assertEqual(tool.in_bundle("use crate::low::Thing; use low::Thing;", "lembokuj", ["low"]), "use crate::low::Thing; use crate::parts::low::Thing;")

    def test_another_folder_stays(self):
        with tempfile.TemporaryDirectory() as folder:
            with open(os.path.join(folder, "mine"), "w", encoding="utf-8") as file:
                file.write("mine")
            with self.assertRaises(tool.Refused):
                tool.make_bundle(folder)
            self.assertEqual(os.listdir(folder), ["mine"])


if __name__ == "__main__":
    unittest.main()
