"""Tests of tools/derive: what is printed, what is refused, and what the command writes.

    python3 -m unittest discover tools/derive/tests
"""

import importlib.util
import re
import shutil
import sys
import tempfile
import unittest
from contextlib import redirect_stderr, redirect_stdout
from io import StringIO
from pathlib import Path
from typing import List, Tuple

HERE = Path(__file__).resolve().parent
# What a case's file has too: its module, and what is imported, which no case is about.
REST = "mod derived;\nuse scroll_layouts::*;\n"
sys.path.insert(0, str(HERE.parent))
from text import formatted
from tokens import Refused

found = importlib.util.spec_from_file_location("derive_main", HERE.parent / "__main__.py")
assert found and found.loader
command = importlib.util.module_from_spec(found)
found.loader.exec_module(command)


def cases(name: str) -> List[str]:
    """Returns the descriptions in a file."""
    return (HERE / name).read_text(encoding="utf-8").split("\n===\n")[1:]


def typos(line: str, at: int) -> List[str]:
    """Returns a line with each slip at a letter."""
    before, letter, after = line[:at], line[at], line[at + 1 :]
    return [before + after, before + letter + letter + after, before + letter.swapcase() + after, before + "x" + after, before + after[:1] + letter + after[1:]]


class Derive(unittest.TestCase):
    def setUp(self) -> None:
        room = tempfile.TemporaryDirectory()
        self.addCleanup(room.cleanup)
        self.crate = Path(room.name) / "formats"
        (self.crate / "src").mkdir(parents=True)
        self.file = self.crate / "src" / "shapes.rt"
        self.derived = self.crate / "src" / "shapes" / "derived.rt"

    def call(self, *words: str) -> Tuple[int, str, str]:
        with redirect_stdout(StringIO()) as out, redirect_stderr(StringIO()) as err:
            status = command.main([*words])
        return status, out.getvalue(), err.getvalue()

    def test_what_is_printed(self) -> None:
        for case in cases("right.txt"):
            text, _, wanted = case.partition("\n=>\n")
            with self.subTest(text):
                self.file.write_text(f"{text}\n{REST}", encoding="utf-8")
                self.assertEqual(self.call(str(self.crate)), (0, "", ""))
                printed = self.derived.read_text(encoding="utf-8").split("\n")
                place = 0
                for line in wanted.rstrip("\n").split("\n"):
                    if line.startswith("!"):
                        self.assertNotIn(line[1:], printed)
                        continue
                    self.assertIn(line, printed[place:])
                    place = printed.index(line, place) + 1
                self.assertTrue(all(len(line) <= 100 for line in printed if not line.lstrip().startswith(("ghost use", "×", "|", "//"))))

    def test_what_only_stands_in_others(self) -> None:
        for mark, count in (("Pread, Pwrite", 2), ("Part", 0)):
            struct = "pub struct Name<'a> {\n    pub len: u8,\n    // #[scroll(ctx = len as usize)]\n    pub text: &'a [u8],\n}\n"
            self.file.write_text(f"mod derived;\n// #[derive({mark})]\n{struct}", encoding="utf-8")
            self.assertEqual(self.call(str(self.crate)), (0, "", ""))
            printed = self.derived.read_text(encoding="utf-8")
            self.assertEqual(len(re.findall(r"Ctx<.*> for Name<'a>", printed)), count)
            self.assertIn("Shape for Name<'a>", printed)

    def test_what_is_refused(self) -> None:
        for case in cases("wrong.txt"):
            line, message = next((at, it) for at, it in enumerate(case.split("\n"), 1) if it.strip().startswith("//~"))
            with self.subTest(message.strip()):
                module = "" if "needs `mod" in message else REST
                self.file.write_text(re.sub(r"//~.*", "//", case) + f"\n{module}", encoding="utf-8")
                status, out, err = self.call(str(self.crate))
                said = f"derive: {self.file}:{line + 1}: {message.strip()[4:]}\n"
                self.assertEqual((status, out, err), (2, "", said))
                self.assertFalse(self.derived.exists())

    def test_what_is_stale(self) -> None:
        text = cases("right.txt")[1].partition("\n=>\n")[0] + "\nmod derived;\n"
        self.file.write_text(text, encoding="utf-8")
        stale = f"{self.derived} is stale: run `python3 tools/derive {self.crate}`\n"
        self.assertEqual(self.call("--check", str(self.crate)), (1, stale, ""))
        self.assertFalse(self.derived.exists())
        self.call(str(self.crate))
        self.assertEqual(self.call("--check", str(self.crate)), (0, "", ""))
        changed = text.replace("pub len: u32,\n    pub kind: u32,", "pub kind: u32,\n    pub len: u32,")
        self.file.write_text(changed, encoding="utf-8")
        self.assertEqual(self.call("--check", str(self.crate)), (1, stale, ""))
        self.file.write_text("", encoding="utf-8")
        self.assertEqual(self.call("--check", str(self.crate)), (1, stale.replace("stale", "left over"), ""))
        self.call(str(self.crate))
        self.assertFalse(self.derived.exists())

    def test_the_root(self) -> None:
        text = cases("right.txt")[0].partition("\n=>\n")[0] + "\nmod derived;\n"
        (self.crate / "src" / "lib.rt").write_text(text, encoding="utf-8")
        self.assertEqual(self.call(str(self.crate)), (0, "", ""))
        self.assertIn("use super::Point;", (self.crate / "src" / "derived.rt").read_text(encoding="utf-8"))

    def test_a_struct_of_another_file(self) -> None:
        point = "mod derived;\n// #[derive(Pread, Pwrite)]\nstruct Point {\n    x: u8,\n}\n"
        (self.crate / "src" / "points.rt").write_text(point, encoding="utf-8")
        line = "use crate::points::Point;\nmod derived;\n// #[derive(Pread, Pwrite)]\nstruct Line {\n    from: Point,\n}\n"
        self.file.write_text(line, encoding="utf-8")
        self.assertEqual(self.call(str(self.crate)), (0, "", ""))
        self.assertIn("use super::{Line, Point};", self.derived.read_text(encoding="utf-8"))

    def test_names_by_their_imports(self) -> None:
        """A type or a constant is that which the file imports, and no other of its name."""
        for name, tag in (("alpha", 3), ("beta", 5)):
            text = f"const MARK: u8 = {tag}0;\n// #[derive(Part)]\n// #[scroll(given = kind: u8)]\nenum Body {{\n    // #[scroll(is = {tag})]\n    A,\n}}\n"
            (self.crate / "src" / f"{name}.rt").write_text(f"mod derived;\n{text}", encoding="utf-8")
        head = "mod derived;\n// #[derive(Pread, Pwrite)]\nstruct Outer {\n    // #[scroll(is = MARK)]\n    mark: u8,\n    kind: u8,\n"
        user = head + "    // #[scroll(ctx = kind)]\n    body: Body,\n}\n"
        inside = "mod tests {\n    use crate::alpha::{Body, MARK};\n}\nfn other() {\n    const MARK: u8 = 7;\n}\n"
        for line, tag in (
            ("use crate::alpha::{Body, MARK};\n", 3),
            ("use crate::beta::{Body, MARK};\n", 5),
            ("use super::beta::*;\n", 5),
            ("use crate::{alpha::*, beta::{Body, MARK}};\n", 5),
            ("use crate::alpha;\nuse alpha::{Body, MARK};\n", 3),
            (f"{inside}use crate::beta::{{Body, MARK}};\n", 5),
        ):
            with self.subTest(line):
                self.file.write_text(line + user, encoding="utf-8")
                self.assertEqual(self.call(str(self.crate)), (0, "", ""))
                printed = self.derived.read_text(encoding="utf-8")
                home = {3: "alpha", 5: "beta"}[tag]
                self.assertIn(f"(h.1 ≡ {tag})" if "(h.1" in printed else f"≡ {tag})", printed)
                self.assertIn("use super::{Body, MARK, Outer};", printed)
                self.assertIn(f"ghost use Rattle.formats.specs.declared.{home}.TheConstants.{{MARK}};", printed)
        for line, at, said in (
            ("use crate::beta::MARK;\n", 9, "the field body is of Body, which this file doesn't import: `use crate::alpha::Body;`"),
            ("use crate::alpha::*;\nuse crate::beta::*;\n", 6, "the field mark names the constant MARK, of which there are two"),
            ("use crate::beta::{Body as Inner, MARK};\ntype Body = Inner;\n", 10, "the field body is of Body, which this file doesn't import"),
        ):
            with self.subTest(line):
                self.file.write_text(line + user, encoding="utf-8")
                status, out, err = self.call(str(self.crate))
                self.assertEqual((status, out), (2, ""))
                self.assertTrue(err.startswith(f"derive: {self.file}:{at}: {said}"), err)

    def test_typos_in_notes(self) -> None:
        """A note, or the line before a struct, in which one letter is left out, doubled, another or changed with the next, is refused."""
        note, mark = "// #[scroll(is = 77)]", "// #[derive(Pread, Pwrite)]"
        struct = "struct Pair {\n    NOTE\n    a: u8,\n}\nmod derived;\n"
        for line, text in ((note, f"{mark}\n{struct}"), (mark, f"NOTE\n{struct.replace('NOTE', '/// A byte.')}")):
            self.file.write_text(text.replace("NOTE", line), encoding="utf-8")
            self.assertEqual(self.call(str(self.crate)), (0, "", ""))
            right = self.derived.read_text(encoding="utf-8")
            for typo in sorted({it for at in range(len(line)) for it in typos(line, at)} - {line}):
                # (which says another number)
                if "is = 7)" in typo:
                    continue
                with self.subTest(typo):
                    self.derived.unlink(missing_ok=True)
                    self.file.write_text(text.replace("NOTE", typo), encoding="utf-8")
                    status, _, err = self.call(str(self.crate))
                    if status == 0:
                        self.assertEqual(self.derived.read_text(encoding="utf-8"), right)
                    else:
                        self.assertRegex(err, rf"^derive: {self.file}:\d+: [^\n]+\n$")

    def test_floats(self) -> None:
        """What no proof finds of a struct with a float is told."""
        struct = "// #[derive(Pread, Pwrite)]\nstruct Sample {\n    rate: f32,\n}\nmod derived;\n"
        said = "    ensures back { IfOk result (λ n. take n to.new ≡ take n from.now) }\n"
        function = f"pub fn copy(from: &[u8], to: &mut [u8]) -> Result<usize>\n{said}{{\n    let sample: Sample = from.pread_with(0, LE)?;\n}}\n"
        self.file.write_text(struct + function, encoding="utf-8")
        status, out, err = self.call(str(self.crate))
        self.assertEqual((status, err), (0, ""))
        self.assertIn(f"{self.file}:6: the function copy says that what was read of Sample is written back, and Sample has a float", out)
        self.file.write_text(struct.replace("f32", "u32") + function, encoding="utf-8")
        self.assertEqual(self.call(str(self.crate)), (0, "", ""))

    def test_the_imports(self) -> None:
        """A field has a name that another text would import, and a message has a word that is a function's name."""
        names = ("last", "refuses", "length", "codes", "rules", "is", "read_exact")
        fields = "".join(f"    {it}: u8,\n" for it in names)
        self.file.write_text(f"// #[derive(Pread, Pwrite)]\nstruct Data {{\n{fields}}}\nmod derived;\n", encoding="utf-8")
        self.assertEqual(self.call(str(self.crate)), (0, "", ""))
        head = self.derived.read_text(encoding="utf-8").partition("\n\n// field")[0].splitlines()
        wanted = [
            "// Printed by tools/derive from shapes.rt.",
            "ghost use Rattle.std.specs.Prelude.{◌≡◌, ◌<◌, ◌^◌, drop};",
            "ghost use Rattle.std.proofs.Common.{refl, rules};",
            "ghost use Rattle.scroll.specs.Numbers.{number};",
            "",
            "use super::Data;",
            "use scroll::ctx::{Record, Written};",
        ]
        self.assertEqual(head, wanted)

    def test_what_is_not_imported(self) -> None:
        """A type of a field has to be imported; of C strings that of std will do."""
        struct = "// #[derive(Pread, Pwrite)]\nstruct Name<'a> {\n    text: CStr<'a>,\n}\nmod derived;\n"
        said = "is of CStr<'a>, which this file doesn't import: `use scroll::cstr::CStr;`"
        for line in ("", "use scroll::cstr::CString;\n", "// use scroll::cstr::CStr;\n"):
            self.file.write_text(struct + line, encoding="utf-8")
            self.assertEqual(self.call(str(self.crate)), (2, "", f"derive: {self.file}:3: the field text {said}\n"))
        for line in ("use scroll::cstr::{CStr, CString};\n", "pub(crate) use std::ffi::CStr;\n", "use scroll::cstr::*;\n"):
            self.file.write_text(struct + line, encoding="utf-8")
            self.assertEqual(self.call(str(self.crate)), (0, "", ""))
        text = struct.replace("CStr<'a>", "Table<'a, u16>").replace("    text", "    // #[scroll(ctx = 4)]\n    text")
        self.file.write_text(text, encoding="utf-8")
        said = "is of Table<'a, u16>, which this file doesn't import: `use scroll_formats::Table;`"
        self.assertEqual(self.call(str(self.crate)), (2, "", f"derive: {self.file}:4: the field text {said}\n"))

    def test_nothing_is_asked_for(self) -> None:
        self.file.write_text("/// A pair.\nstruct Pair {\n    a: u8,\n}\n", encoding="utf-8")
        said = "nothing is written, since no struct or enum stands behind the line `// #[derive(Pread, Pwrite)]`\n"
        self.assertEqual(self.call(str(self.crate)), (0, f"{self.crate}: {said}", ""))
        self.assertEqual(self.call("--check", str(self.crate)), (0, "", ""))

    def test_no_text(self) -> None:
        self.file.write_bytes(b"\xff")
        status, out, err = self.call(str(self.crate))
        self.assertEqual((status, out), (2, ""))
        self.assertIn(f"derive: {self.file}: 'utf-8'", err)

    @unittest.skipUnless(shutil.which("rt"), "there is no rt")
    def test_what_is_no_code(self) -> None:
        with self.assertRaisesRegex(Refused, "^rt fmt: what is printed isn't read: .*file1.rt: it does not parse"):
            formatted(["fn main() {}\n", "fn main( {\n"])

    def test_wrong_calls(self) -> None:
        for words in ((), ("--chek", "a"), ("a", "b")):
            self.assertEqual(self.call(*words), (2, "", f"{command.USAGE}\n"))
        missing = self.crate / "none"
        said = f"derive: {missing}: there is no src/ in this folder, so it is no crate\n"
        self.assertEqual(self.call(str(missing)), (2, "", said))


if __name__ == "__main__":
    unittest.main()
