"""Tests of tools/explain: each kind of fault, with the row as it stands, its line and the rule; and what can't be explained."""

import pathlib
import subprocess
import sys
import tempfile
import unittest

TOP = pathlib.Path(__file__).resolve().parent.parent
TOOL = TOP / "tools" / "explain"
SAMPLE = TOP / "samples" / "sample.csv"
PRODUCT = TOP / "samples" / "product.csv"


def explain(*words):
    done = subprocess.run([sys.executable, TOOL, *map(str, words)], capture_output=True, text=True, check=False)
    return done.returncode, done.stdout, done.stderr


class Explain(unittest.TestCase):
    def setUp(self):
        self.folder = tempfile.TemporaryDirectory()
        self.addCleanup(self.folder.cleanup)

    def file(self, name, text):
        path = pathlib.Path(self.folder.name) / name
        path.write_text(text)
        return path

    def test_a_row_of_the_table(self):
        table = self.file("table", SAMPLE.read_text().replace("ETI,101,LogonRequest,Pad2,6,2,X,", "\nETI,101,LogonRequest,Pad2,6,2,F,"))
        said = f"layout: row 4: kind\n  {table}, line 5 (row 4): ETI,101,LogonRequest,Pad2,6,2,F,\n  kind: `F`\n  the kind is another word\n"
        self.assertEqual(explain("--line", "layout: row 4: kind", table), (0, said, ""))

    def test_the_command_is_run(self):
        table = self.file("table", SAMPLE.read_text().replace("PartyIDSessionID,16,4", "PartyIDSessionID,14,4"))
        status, out, fault = explain("check", table)
        self.assertEqual((status, fault), (0, ""))
        self.assertEqual(
            out.splitlines(),
            [
                "layout: row 7: overlap",
                f"  {table}, line 7 (row 7): ETI,101,LogonRequest,PartyIDSessionID,14,4,U,4294967295",
                "  offset: `14`",
                "  the row before it: ETI,101,LogonRequest,HeartBtInt,12,4,U,4294967295",
                "  its offset is below the end of the field before it in the template",
            ],
        )
        self.assertEqual(explain("check", SAMPLE), (0, "status 0, END 32: no fault of a file's row\n", ""))

    def test_each_reason_has_its_rule(self):
        reasons = "columns,family,cell,kind,width,null,duplicate id,duplicate name,overlap,hole,length,header,role field,role missing"
        for why in reasons.split(","):
            status, out, _ = explain("--line", f"layout: row 7: {why}", SAMPLE)
            self.assertEqual(status, 0)
            self.assertGreater(len(out.splitlines()[-1]), 20)
        for why in "key,columns,number,duplicate,missing".split(","):
            status, out, _ = explain("--line", f"product: row 2: {why}", SAMPLE, PRODUCT)
            self.assertEqual(status, 0)
            self.assertGreater(len(out.splitlines()[-1]), 20)

    def test_a_row_of_the_product_file(self):
        product = self.file("product", "product,7\nwindow,0\n")
        status, out, _ = explain("--line", "product: row 2: number", SAMPLE, product)
        self.assertEqual(status, 0)
        self.assertEqual(out.splitlines()[1:], [f"  {product}, line 2 (row 2): window,0", "  a number: `0`", "  a number isn't plain or is out of its range"])
        status, out, _ = explain("--line", "product: row 3: missing", SAMPLE, product)
        self.assertIn("behind its last row, 2", out)

    def test_a_line_of_a_script(self):
        script = self.file("script", "SHOW\n\nDANCE\n")
        status, out, _ = explain("--line", "script: row 3: event", SAMPLE, PRODUCT, script)
        self.assertEqual((status, out.splitlines()[1]), (0, f"  {script}, line 3: DANCE"))

    def test_what_cannot_be_explained(self):
        for words, said in [
            (["--line", "END 3", SAMPLE], "explain: `END 3` is no fault of a file's row\n"),
            (["--line", "layout: row 3: taste", SAMPLE], "explain: docs/PROFILE.md has no rule `taste`\n"),
            (["--line", "product: row 3: key", SAMPLE], "explain: a fault of `product` wants the product file\n"),
            (["--line", "layout: row 3: kind", "nowhere"], "explain: nowhere: No such file or directory\n"),
        ]:
            self.assertEqual(explain(*words)[::2], (1, said))


if __name__ == "__main__":
    unittest.main()
