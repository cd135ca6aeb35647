"""The tables for C say what the page file says, and a C compiler takes them."""
import re
import shutil
import subprocess
import tempfile
import unittest
from pathlib import Path

from mearrasot_tools.build import build
from mearrasot_tools.ctables import c_tables
from mearrasot_tools.numbers import bits, f32
from mearrasot_tools.source import Bad

from . import PAGES, STORED, TOP, page_text


def table(text: str, name: str) -> list[str]:
    inside = re.search(rf"{name}\[\] = \{{(.*?)\}};", text, re.DOTALL).group(1)
    return [cell.strip() for cell in re.sub(r"/\*.*?\*/", "", inside).split(",") if cell.strip()]


class Tables(unittest.TestCase):
    def test_parsed_back(self):
        for path in sorted(PAGES.glob("*.html")):
            page = build(path.read_text(encoding="utf-8"))
            text = c_tables(page, path.stem, path.name)
            words = [int(w.rstrip("u"), 16) for w in table(text, f"{path.stem}_words")]
            self.assertEqual(words, [w for node in page.nodes for w in node.words()], path.name)
            numbers = [bits(f32(float(x.rstrip("f")))) for x in table(text, f"{path.stem}_numbers")]
            self.assertEqual(numbers, [bits(node.numbers[f]) for f in range(28) for node in page.nodes], path.name)
            names = re.findall(rf"^    {path.stem.upper()}_(\w+) = (\d+)", text, re.MULTILINE)
            wanted = [(name.replace("-", "_").replace(".", "_").upper(), str(i)) for i, name in enumerate(page.names())]
            self.assertEqual(names, wanted + [("NODES", str(len(page.nodes)))], path.name)

    def test_stored(self):
        page = build((PAGES / "notice.html").read_text(encoding="utf-8"))
        self.assertEqual(c_tables(page, "notice", "notice.html"), (STORED / "notice.h").read_text(encoding="utf-8"))

    def test_question(self):
        body = "margin: 0; width: 100px; height: 80px"
        text = c_tables(build(page_text("#page { height: 100% }", body=body)), "p", "p.html")
        self.assertIn("100.0f, 80.0f, 100.0f, 0.0f,", text)
        how = "MEARRASOT_KNOWN_WIDTH | MEARRASOT_KNOWN_HEIGHT | MEARRASOT_MAX_CONTENT | MEARRASOT_START | MEARRASOT_END | MEARRASOT_DEFINITE_HEIGHT"
        self.assertIn(how, text)

    def test_names_meet(self):
        with self.assertRaises(Bad) as caught:
            c_tables(build(page_text(inside='<div id="a-b"></div><div id="A_b"></div>')), "p", "p.html")
        self.assertEqual((caught.exception.line, caught.exception.column), (4, 21))

    @unittest.skipUnless(shutil.which("cc"), "there is no C compiler")
    def test_compiles(self):
        """In C99, with a check by the compiler that the tables are as long as the header says."""
        with tempfile.TemporaryDirectory() as folder:
            program = []
            for path in sorted(PAGES.glob("*.html")):
                name = path.stem
                Path(folder, f"{name}.h").write_text(c_tables(build(path.read_text(encoding="utf-8")), name, path.name), encoding="utf-8")
                program += [
                    f'#include "{name}.h"',
                    f"typedef char {name}_w[sizeof {name}_words == MEARRASOT_WORDS_BYTES({name.upper()}_NODES) ? 1 : -1];",
                    f"typedef char {name}_n[sizeof {name}_numbers == MEARRASOT_NUMBERS_BYTES({name.upper()}_NODES) ? 1 : -1];",
                ]
            Path(folder, "all.c").write_text("\n".join(program) + "\n", encoding="utf-8")
            call = ["cc", "-std=c99", "-Wall", "-Wextra", "-pedantic", "-Werror", "-fsyntax-only", "-I", str(TOP / "include"), "all.c"]
            done = subprocess.run(call, cwd=folder, capture_output=True, text=True, check=False)
            self.assertEqual((done.returncode, done.stderr), (0, ""))


if __name__ == "__main__":
    unittest.main()
