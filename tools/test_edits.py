"""Tests of `edits`: a small tree of one crate, and the table of docs/EDITS.md."""

import pathlib
import tempfile
import unittest

import sources
from called import TOP, call

LIB = """//! A crate.
mod helper;
mod table;
pub mod rows;

pub use table::{
    Table, find,
};
"""
TABLE = """pub trait Keeps<T> {
    fn keep(&mut self, value: T)
        ensures { self.new ≡ self.old };

    fn keep_all(&mut self) {
        self.keep(1);
    }
}

pub struct Table {
    rows: Vec<u32>,
}

impl Table {
    pub fn put(&mut self, row: u32)
        ensures { self.new ≡ self.old }
    {
        self.rows.push(row);
    }

    pub fn take(
        &mut self,
        row: u32,
    ) -> Option<u32>
    {
        self.rows.pop()
    }

    fn count(&self) -> usize {
        self.rows.len()
    }
}

impl<T: Into<u32>> Keeps<T> for Table {
    fn keep(&mut self, value: T) {
        self.rows.insert(0, value.into());
    }
}

impl Keeps<u32> for Hidden {
    fn keep(&mut self, value: u32) {}
}

struct Hidden;

pub fn find(rows: &[u32]) -> usize {
    low(rows)
}
"""
HELPER = """/// The lowest.
pub fn low(rows: &[u32]) -> usize {
    rows.len()
}
"""
ROWS = """pub fn clear(rows: &mut Vec<u32>) { rows.clear(); }

fn mend(rows: &mut Vec<u32>) {
    rows.dedup();
}
"""
PUT = "file: src/table.rt\nold:         self.rows.push(row);\nnew:         self.rows.push(0);\n"
MEND = "What it does.\nfile: src/rows.rt\nold: rows.dedup();\nnew: rows.sort();\n"
HEAD = "| Crate | Edit | Function | Clause | The wrong body |\n|---|---|---|---|---|\n"
PUT_ROW = "| shop | first_row_lost | `Table::put` | its clause | loses the row |\n"
MEND_ROW = "| shop | mended_twice | `clear`, at `mend` | its clause | sorts |\n"


class Shop(unittest.TestCase):
    """A repository of one crate."""

    def setUp(self):
        folder = tempfile.TemporaryDirectory()
        self.addCleanup(folder.cleanup)
        self.top = pathlib.Path(folder.name)
        files = {"lib": LIB, "table": TABLE, "helper": HELPER, "rows": ROWS}
        for name, text in files.items():
            self.write(f"crates/shop/src/{name}.rt", text)
        self.write("crates/shop/must-fail/first_row_lost.edit", PUT)
        self.write("crates/shop/must-fail/mended_twice.edit", MEND)
        self.write_rows(PUT_ROW, MEND_ROW)

    def write(self, path, text):
        file = self.top / path
        file.parent.mkdir(parents=True, exist_ok=True)
        file.write_text(text)

    def write_rows(self, *rows):
        self.write("docs/EDITS.md", "# Edits\n\n" + HEAD + "".join(rows))

    def edits(self, command):
        return call("edits", "--top", self.top, command)

    def test_exported_functions(self):
        (shop,) = sources.crates(self.top)
        changing = {function.title for function in shop.exported if function.changes}
        self.assertEqual(changing, {"Table::put", "Table::take", "Table::keep", "clear"})
        self.assertEqual({function.title for function in shop.exported} - changing, {"find"})

    def test_lines_of_functions(self):
        (shop,) = sources.crates(self.top)
        self.assertEqual(shop.function_at("src/table.rt", "        self.rows.pop()").title, "Table::take")
        self.assertIsNone(shop.function_at("src/table.rt", "struct Hidden;"))
        with self.assertRaises(LookupError):
            shop.function_at("src/table.rt", "rows")

    def test_list(self):
        status, out, error = self.edits("list")
        self.assertEqual((status, error), (0, ""))
        self.assertEqual(out.decode(), "shop: 2\n  first_row_lost: Table::put\n  mended_twice: clear, at mend\n2 edits\n")

    def test_count(self):
        self.assertEqual(self.edits("count")[1].decode(), "   2 shop\n   2 in all\n")

    def test_missing(self):
        lines = self.edits("missing")[1].decode().splitlines()
        self.assertEqual(lines[:2], ["shop: Table::keep", "shop: Table::take"])

    def test_check(self):
        self.assertEqual(self.edits("check"), (0, b"2 edits, each with its row\n", ""))

    def test_wrong_rows(self):
        wrong = (
            ((MEND_ROW,), "first_row_lost has no row"),
            ((PUT_ROW, MEND_ROW, PUT_ROW.replace("first", "last")), "last_row_lost is not there"),
            ((PUT_ROW.replace("put", "take"), MEND_ROW), "first_row_lost changes Table::put, and not Table::take"),
            ((PUT_ROW, MEND_ROW.replace("`mend`", "`find`")), "mended_twice changes mend, and not find"),
            ((PUT_ROW, MEND_ROW.replace("`clear`", "`low`")), "mended_twice names low, which is not exported"),
        )
        for rows, why in wrong:
            with self.subTest(why):
                self.write_rows(*rows)
                status, out, error = self.edits("check")
                self.assertEqual(status, 1)
                self.assertEqual(out.decode(), f"shop {why}\n")
                self.assertEqual(error, "docs/EDITS.md is not the list of the edits\n")

    def test_an_edit_of_a_line_that_is_gone(self):
        self.write("crates/shop/must-fail/gone.edit", PUT.replace("push(row)", "push(all)"))
        status, _, error = self.edits("check")
        self.assertEqual((status, error), (1, "shop src/table.rt has 0 lines 'self.rows.push(all);'\n"))


class Repository(unittest.TestCase):
    def test_each_edit_has_its_row(self):
        status, out, error = call("edits", "check")
        self.assertEqual((status, error), (0, ""), out.decode())

    def test_the_documents_tell_the_number(self):
        total = call("edits", "count")[1].decode().splitlines()[-1].split()[0]
        self.assertIn(f"There are {total}.", (TOP / "docs" / "EDITS.md").read_text())
        self.assertIn(f"the {total} edits", (TOP / "docs" / "CLAIMS.md").read_text())


if __name__ == "__main__":
    unittest.main()
