"""The scripts of the gate: each refuses the tree that it is there to refuse."""

import os
import pathlib
import shutil
import subprocess
import unittest
import unittest.mock
from typing import List, Tuple

from support import TOOLS, directory

TOP = TOOLS.parent


def refusal(words: List[object], path: str = os.environ["PATH"]) -> Tuple[int, str]:
    """Status and all output of a script."""
    done = subprocess.run(
        list(map(str, words)), stdout=subprocess.PIPE, stderr=subprocess.STDOUT, text=True, check=False, env={**os.environ, "PATH": path},
    )
    return done.returncode, done.stdout


def tree(folder: pathlib.Path, files: List[str]) -> pathlib.Path:
    """A tree like this one: these files as copies, and all else of their folders as links."""
    made: set[pathlib.Path] = set()
    for file in files:
        for inner in reversed(pathlib.Path(file).parents):
            if inner in made:
                continue
            made.add(inner)
            if inner.name:
                (folder / inner).unlink()
            (folder / inner).mkdir(parents=True, exist_ok=True)
            for it in (TOP / inner).iterdir():
                if it.name not in (".git", "out"):
                    (folder / inner / it.name).symlink_to(it)
        (folder / file).unlink()
        shutil.copy2(TOP / file, folder / file)
    return folder


def replace(file: pathlib.Path, old: str, new: str) -> None:
    text = file.read_text(encoding="utf-8")
    assert old in text, file
    file.write_text(text.replace(old, new, 1), encoding="utf-8")


class Promise(unittest.TestCase):
    """`.ci/promise` over a definition of the promise that names a word of proofs/."""

    CHECK, SPEC, HIDDEN = ".ci/promise", "crates/sd_headline/specs/Headlines.antt", "crates/sd_headline/proofs/Hidden.antt"
    FIRST, CALL = "use Rattle.std.specs.Prelude.", "none_before is_alarm is_broken (whole_lines text)"

    def tree(self, folder: pathlib.Path) -> pathlib.Path:
        tree(folder, [self.CHECK, self.SPEC])
        proofs = folder / "crates/sd_headline/proofs"
        if proofs.is_symlink():
            proofs.unlink()
        proofs.mkdir()
        (folder / self.HIDDEN).write_text("pub is_fine : {A : Type 0} \u2192 A \u2192 A\nis_fine it = it\n", encoding="utf-8")
        return folder

    def test_a_word_of_proofs_is_met(self):
        for use, call in (("{is_fine}", "is_fine"), ("{is_fine as is_good}", "is_good"), (None, "hidden.is_fine")):
            with self.subTest(call=call), directory() as folder:
                self.tree(folder)
                line = f"use Rattle.sd_headline.proofs.Hidden{'.' + use if use else ' as hidden'}\n"
                replace(folder / self.SPEC, self.FIRST, line + self.FIRST)
                replace(folder / self.SPEC, self.CALL, f"{call} ({self.CALL})")
                status, said = refusal([folder / self.CHECK])
                self.assertEqual(status, 1)
                self.assertIn(f"promise: {self.HIDDEN}: the promise uses it, and docs/PROMISE.md does not list it", said)

    def test_a_use_that_cannot_be_followed(self):
        with directory() as folder:
            self.tree(folder)
            replace(folder / self.SPEC, self.FIRST, "use Rattle.sd_headline.other.Hidden.{is_fine}\n" + self.FIRST)
            status, said = refusal([folder / self.CHECK])
            self.assertEqual(status, 1)
            self.assertIn("a `use` that leads on in a way that this does not follow", said)

    def test_a_name_that_the_tables_leave_out(self):
        for name in ("waits_in", "AlwaysSafe"):
            with self.subTest(name=name), directory() as folder:
                tree(folder, [self.CHECK, "docs/PROMISE.md"])
                page = (folder / "docs/PROMISE.md").read_text(encoding="utf-8")
                before, made, after = page.partition("<!-- made by .ci/promise -->")
                (folder / "docs/PROMISE.md").write_text(before + made + after.replace(f"`{name}` ", "", 1), encoding="utf-8")
                status, said = refusal([folder / self.CHECK])
                self.assertEqual(status, 1)
                self.assertIn("docs/PROMISE.md has other numbers or lists", said)

    def test_a_lemma_that_is_not_there(self):
        with directory() as folder:
            tree(folder, [self.CHECK, "docs/PROVED.md"])
            replace(folder / "docs/PROVED.md", "`lineage_orders`", "`lineage_reorders`")
            status, said = refusal([folder / self.CHECK])
            self.assertEqual(status, 1)
            self.assertIn("docs/PROVED.md names lineage_reorders", said)

    def test_a_definition_that_no_table_has(self):
        with directory() as folder:
            tree(folder, [self.CHECK, "docs/PROVED.md"])
            replace(folder / "docs/PROVED.md", "(`IsRebased`)", "(`IsRebased`, `CanAct`)")
            status, said = refusal([folder / self.CHECK])
            self.assertEqual(status, 1)
            self.assertIn("docs/PROMISE.md has other numbers or lists", said)


class Facts(unittest.TestCase):
    """`.ci/facts` over pages that name what is not there."""

    def test_a_name_that_is_not_there(self):
        for page, old, new in (("PROMISE", "`IsSafe`", "`IsSafer`"), ("ASSURANCE", "`sd_test_rows`", "`sd_test_columns`"), ("SAFETY", "`IsAdmitted`", "`IsAdmited it`")):
            with self.subTest(page=page), directory() as folder:
                tree(folder, [".ci/facts", f"docs/{page}.md"])
                replace(folder / f"docs/{page}.md", old, new)
                status, said = refusal([folder / ".ci/facts"])
                self.assertEqual(status, 1)
                self.assertIn(f"docs/{page}.md names {new.strip('`').split()[0]}", said)

    def test_a_crate_of_the_kit_that_is_not_listed(self):
        with directory() as folder:
            tree(folder, [".ci/facts", "docs/ASSURANCE.md"])
            replace(folder / "docs/ASSURANCE.md", "`memchr` ", "")
            status, said = refusal([folder / ".ci/facts"])
            self.assertEqual(status, 1)
            self.assertIn("docs/ASSURANCE.md does not list memchr", said)


class Declarations(unittest.TestCase):
    """`bindings/declarations` over a struct whose fields may have another order."""

    def test_a_struct_without_repr(self):
        for file, name in (("crates/sd_device_c/src/plain.rt", "PlainWide"), ("bindings/rust/src/raw.rs", "$name")):
            with self.subTest(file=file), directory() as folder:
                tree(folder, ["bindings/declarations", file])
                self.assertEqual(refusal([folder / "bindings/declarations"])[0], 0)
                replace(folder / file, "#[repr(C)]\n", "")
                status, said = refusal([folder / "bindings/declarations"])
                self.assertEqual(status, 1)
                self.assertIn(f"{file}: the struct {name} is not repr(C)", said)


class Embed(unittest.TestCase):
    """`.ci/embed` where there is no C compiler."""

    def test_it_says_what_was_left_out(self):
        with directory() as folder:
            for name in ("bash", "dirname", "python3"):
                (folder / name).symlink_to(shutil.which(name) or name)
            status, said = refusal([TOP / ".ci/embed"], path=str(folder))
            self.assertEqual(status, 0)
            self.assertIn("left out, as there is no C compiler", said)


class Postgres(unittest.TestCase):
    """`.ci/postgres` where there is no PostgreSQL."""

    def test_it_says_what_was_left_out(self):
        with unittest.mock.patch.dict(os.environ, PG_CONFIG="/none"):
            status, said = refusal([TOP / ".ci/postgres"])
        self.assertEqual(status, 0)
        self.assertIn("left out, as there is no PostgreSQL 15", said)


if __name__ == "__main__":
    unittest.main()
