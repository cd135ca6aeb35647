"""Runs the two programs and reads what they print."""
import os
import platform
import shutil
import subprocess
from dataclasses import dataclass, field
from pathlib import Path

from .numbers import f32, from_bits
from .page import Page
from .source import Bad

TOP = Path(__file__).resolve().parents[2]
LAID, OUT, BASELINE = 1, 4, 1 << 9
REFUSALS = {
    1: "lengths", 2: "the tree", 3: "a code or unit", 4: "a number out of range", 5: "too few records",
    6: "the list of edits", 7: "no layout before", 8: "a result too large",
}


Candidate = tuple[int, int, float, float, float]  # node, order, start, end, line


@dataclass
class Row:
    order: int
    marks: int
    numbers: list[float]

    def laid(self) -> bool:
        return bool(self.marks & LAID)


@dataclass
class Layout:
    """What a layout left: rows by node, and the candidates."""
    rows: list[Row] = field(default_factory=list)
    candidates: list[Candidate] = field(default_factory=list)


def command(name: str) -> list[str]:
    """As examples/show does: elsewhere than on x86-64 by the toolchain's emulator."""
    program = TOP / "crates" / name / "out" / name
    if not os.access(program, os.X_OK):
        script = "show examples/notice.page" if name == "mearrasot" else "replay examples/day.trace"
        raise Bad(f"crates/{name}/out/{name} is missing; examples/{script} proves and builds it")
    if platform.machine() == "x86_64":
        return [str(program)]
    home = os.environ.get("RATTLE_HOME")
    if not home:
        rt = shutil.which("rt")
        if not rt:
            raise Bad("rt is not in the path, and its emulator is needed to run the programs here")
        home = str(Path(rt).resolve().parent.parent)
    kit = Path(home) / "on" / platform.machine() / "toolchain"
    return [str(kit / "bin/qemu-x86_64"), str(kit / "lib/ld-linux-x86-64.so.2"), "--library-path", str(kit / "lib"), str(program)]


def run(name: str, text: str) -> list[str]:
    done = subprocess.run(command(name), input=text, capture_output=True, text=True, check=False)
    if done.returncode != 0 or not done.stdout:
        raise Bad(f"{name} ended with status {done.returncode} {done.stderr.strip()}")
    lines = done.stdout.splitlines()
    if lines[0].startswith("badline="):
        raise Bad(f"{name} does not take line {lines[0][8:]} of its input")
    return lines


def refuse(answer: str, page: Page, what: str) -> None:
    number, place = (int(x) for x in answer.split("=")[1].split(","))
    if number == 0:
        return
    node = f", {page.names()[place]}" if place < len(page.nodes) and number in (2, 3, 4, 8) else ""
    line = page.nodes[place].place if node else (0, 0)
    raise Bad(f"{what} is refused with {number}, {REFUSALS.get(number, '?')}; place {place}{node}", *line)


def read_rows(lines: list[str]) -> list[Row]:
    rows = []
    for line in lines:
        if line.startswith("row="):
            part = line[4:].split(",")
            rows.append(Row(int(part[1]), int(part[2], 16), [from_bits(x) for x in part[3:]]))
    return rows


def candidates(page: Page, rows: list[Row]) -> list[Candidate]:
    """From the rows: the places of the nodes above are added, the innermost first, the root's not."""
    above = page.parents()
    found = []
    for i, row in enumerate(rows):
        if row.marks & OUT and not row.laid():
            start, line, end = row.numbers[:3]
            up = above[i]
            while up > 0:
                start, end = f32(start + rows[up].numbers[0]), f32(end + rows[up].numbers[0])
                line = f32(line + rows[up].numbers[1])
                up = above[up]
            found.append((i, row.order, start, end, line))
    return found


def lay(page: Page) -> Layout:
    """Whole rows by the replay program; boxes and candidates have to be those that the page program prints."""
    said = run("mearrasot", page.text())
    refuse(said[0], page, "the page")
    rows = read_rows(run("replay", page.text() + "events=1\ndo=layout\n"))
    layout = Layout(rows, candidates(page, rows))
    printed = []
    for line in said:
        key, _, value = line.partition("=")
        part = value.split(",")
        if key == "box" and rows[int(part[0])].numbers[:4] != [from_bits(x) for x in part[2:]]:
            raise Bad(f"the two programs part at node {part[0]}")
        if key == "cand":
            printed.append((int(part[0]), int(part[1]), *[from_bits(x) for x in part[2:]]))
    if printed != layout.candidates:
        raise Bad("the two programs part in the candidates")
    return layout
