#!/usr/bin/env python3
"""Packs a collection of linked programs, runs each before and after, watches it, and prints docs/FIGURES.md's table.

    examples/figures.py SQUEEZE COLLECTION
    examples/figures.py SQUEEZE rows COLLECTION
    examples/figures.py SQUEEZE hostile [KIND ..]
    examples/figures.py chart TABLE > flags.svg

The second form prints how many words each row of the cost rule saved in each program, as `size` tells. The third packs the
files of examples/hostile.py, of three sizes each, and prints processor time, peak memory, and the power of the size by which
time grew last. The fourth draws what examples/flags/measure.sh printed into the file TABLE: text as the compilers and the
linker's relaxation leave it, and packed.

SQUEEZE is the built program. COLLECTION is a folder with manifest.json: a record with base, size, limit and a list of
executables. Each has file, verdict, text, loaded and runs, and each run has argv, stdin, stdout_sha256, plain_end and
watch_end. Any folder of this form serves. The script ends with status 1 where a file doesn't do what its manifest says.
"""

import hashlib
import hostile
import json
import math
import os
import pathlib
import re
import subprocess
import sys
import tempfile
import time


def call(squeeze, *words):
    """The status, the lines that were printed, and the seconds of time used."""
    start = time.perf_counter()
    done = subprocess.run([squeeze, *map(str, words)], capture_output=True, text=True)
    return done.returncode, (done.stdout + done.stderr).splitlines(), time.perf_counter() - start


def written(lines):
    """The bytes that a run wrote to its standard output."""
    texts = (line.split() for line in lines)
    return b"".join(bytes.fromhex("".join(t[2:])) for t in texts if t[0] == "write" and t[1] == "1")


def agrees(run, lines):
    digest = hashlib.sha256(written(lines)).hexdigest()
    return digest == run["stdout_sha256"] and lines[-1] == run["plain_end"]


LIMIT = 120  # seconds, of each file
WORDS = 260_900  # of text at most, to which one kind adds 1,023


def peak(process):
    """The peak memory of a running process so far, in MB. (What the kernel tells at its end has this script's in it.)"""
    try:
        told = re.search(r"VmHWM:\s*(\d+) kB", pathlib.Path(f"/proc/{process.pid}/status").read_text())
    except OSError:
        return 0
    return int(told[1]) / 1024 if told else 0


def measured(squeeze, *words):
    """The status, the last line that was printed, processor time in seconds, and peak memory in MB; None where it takes too long."""
    with tempfile.TemporaryFile() as lines:
        start, memory = time.perf_counter(), 0
        child = subprocess.Popen([squeeze, *map(str, words)], stdout=lines, stderr=lines)
        while True:
            memory = max(memory, peak(child))
            ended, status, used = os.wait4(child.pid, os.WNOHANG)
            if ended:
                lines.seek(0)
                last = lines.read().decode().splitlines()[-1:]
                return os.waitstatus_to_exitcode(status), (last or ["nothing printed"])[0], used.ru_utime + used.ru_stime, memory
            if time.perf_counter() - start > LIMIT:
                child.kill()
                child.wait()
                return None
            time.sleep(0.002)


class Collection:
    def __init__(self, squeeze, folder):
        self.squeeze = squeeze
        self.folder = folder
        self.manifest = json.loads((folder / "manifest.json").read_text())
        self.wrong = []

    def run_words(self, file, run):
        head = self.manifest
        given = self.folder / run["stdin"] if run["stdin"] else "/dev/null"
        return file, given, head["limit"], head["base"], head["size"], *run["argv"]

    def check(self, name, good, lines):
        if not good:
            self.wrong.append(f"{name}: {lines[-1] if lines else 'nothing printed'}")

    def runs(self, entry, packed):
        """How many runs were unbroken, how many broke, and the steps and seconds of the plain runs."""
        unbroken, broken, steps, seconds = 0, 0, 0, 0.0
        for run in entry["runs"]:
            name = f"{entry['file']} {run['case']}"
            before = call(self.squeeze, "run", *self.run_words(self.folder / entry["file"], run))
            self.check(f"run {name}", agrees(run, before[1]) or run["plain_end"] == "limit", before[1])
            steps, seconds = steps + run["steps"], seconds + before[2]
            watched = call(self.squeeze, "watch", *self.run_words(self.folder / entry["file"], run))
            end = re.sub(r" steps \d+$", "", run["watch_end"])
            self.check(f"watch {name}", watched[1][-1:] == [end], watched[1])
            if end.startswith("break"):
                broken += 1
                continue
            unbroken += 1
            after = call(self.squeeze, "run", *self.run_words(packed, run))
            self.check(f"packed {name}", agrees(run, after[1]), after[1])
        return unbroken, broken, steps, seconds

    def figures(self, entry, packed):
        file = self.folder / entry["file"]
        status, line, seconds, memory = measured(self.squeeze, "pack", file, packed) or (1, f"over {LIMIT} s", 0, 0)
        if entry["verdict"] != "accepted":
            self.check(f"pack {entry['file']}", status == 3, [line])
            return f"| {file.stem} | {line} | | | | | | | |"
        numbers = re.fullmatch(r"text (\d+) -> (\d+), loaded (\d+) -> (\d+)", line)
        self.check(f"pack {entry['file']}", status == 0 and numbers is not None, [line])
        if numbers is None:
            return f"| {file.stem} | {line} | | | | | | | |"
        again = call(self.squeeze, "pack", packed, f"{packed}.again")
        same = again[0] == 0 and packed.read_bytes() == pathlib.Path(f"{packed}.again").read_bytes()
        self.check(f"again {entry['file']}", same, again[1])
        unbroken, broken, _, _ = self.runs(entry, packed)
        before, after, loaded_before, loaded_after = map(int, numbers.groups())
        share = f"{100 * (before - after) / before:.1f} %"
        return (
            f"| {file.stem} | {before:,} | {after:,} | {share} | {loaded_before:,} -> {loaded_after:,} "
            f"| {seconds:.2f} s | {memory:.0f} MB | {unbroken} | {broken} |"
        )


def measure_hostile(squeeze, kinds):
    print("| Kind | Count | Prints | time | memory | grows by |")
    print("|---|---|---|---|---|---|")
    with tempfile.TemporaryDirectory() as folder:
        file, packed = pathlib.Path(folder) / "hostile.elf", pathlib.Path(folder) / "packed.elf"
        for kind in kinds:
            before = None
            for share in (16, 4, 1):
                count = (100_000 if kind == "tables" else WORDS // hostile.KINDS[kind][1]) // share
                with file.open("wb") as out:
                    subprocess.run([sys.executable, hostile.__file__, kind, str(count)], stdout=out, check=True)
                found = measured(squeeze, "pack", file, packed)
                if found is None:
                    print(f"| {kind} | {count:,} | | over {LIMIT} s | | |", flush=True)
                    break
                _, line, seconds, memory = found
                power = f"n^{math.log(seconds / before, 4):.1f}" if before and before > 0.05 else ""
                print(f"| {kind} | {count:,} | {line} | {seconds:.2f} s | {memory:.0f} MB | {power} |", flush=True)
                before = seconds


ROWS = ["U", "J1", "J2", "J3", "C", "T", "O1", "O2", "O3", "O4"]


def print_rows(squeeze, folder):
    print(f"| Program | {' | '.join(ROWS)} | L | left out |".replace("O1", "O1, W").replace("O2", "O2, V"))
    print("|---" * (len(ROWS) + 3) + "|")
    for entry in json.loads((folder / "manifest.json").read_text())["executables"]:
        if entry["verdict"] == "accepted":
            told = json.loads(call(squeeze, "size", folder / entry["file"])[1][-1])
            words = [*[told["rows"][row] for row in ROWS], told["moved"], told["unreached"]]
            print(f"| {pathlib.Path(entry['file']).stem} | {' | '.join(f'{count:,}' for count in words)} |", flush=True)


# of the chart: where bars begin and end, its width, how far apart lines are, and the colours of the two bars
LEFT, RIGHT, WIDTH, STEP = 300, 800, 900, 44
PLAIN, PACKED = "#9aa5b1", "#1f6f8b"


def measured_lines(table):
    """For each program the lines of the table about it: flags, and bytes of text relaxed and packed."""
    programs = {}
    for line in table.splitlines():
        cells = [cell.strip() for cell in line.strip("|").split("|")]
        if len(cells) == 5 and cells[2].isdigit():
            flags = re.sub(r"(-fno-\S+ ?)+", "and seven flags ", cells[1]).strip()
            flags = flags if flags.startswith("clang") else f"gcc {flags}"
            programs.setdefault(cells[0], []).append((flags, int(cells[2]), int(cells[4])))
    return programs


def bar(y, count, most, colour):
    width = (RIGHT - LEFT) * count / most
    return (
        f'<rect x="{LEFT}" y="{y}" width="{width:.0f}" height="14" fill="{colour}"/>'
        f'<text x="{LEFT + width + 6:.0f}" y="{y + 11}">{count:,}</text>'
    )


def chart(table):
    """The drawing, by the SVG standard, 1.1."""
    shapes, y = [], 56
    for program, lines in measured_lines(table).items():
        shapes.append(f'<text x="10" y="{y}" font-weight="bold">{program}</text>')
        most = max(relaxed for _, relaxed, _ in lines)
        for flags, relaxed, packed in lines:
            y += 10
            shapes.append(f'<text x="10" y="{y + 18}">{flags}</text>')
            shapes += [bar(y, relaxed, most, PLAIN), bar(y + 16, packed, most, PACKED)]
            y += STEP - 10
        y += 36
    key = f'<tspan fill="{PLAIN}">as compiler and linker leave it</tspan>, <tspan fill="{PACKED}">packed</tspan>'
    return (
        f'<svg xmlns="http://www.w3.org/2000/svg" width="{WIDTH}" height="{y}" font-family="sans-serif" font-size="12">'
        f'<rect width="{WIDTH}" height="{y}" fill="white"/><text x="10" y="26" font-size="14">Bytes of text: {key}</text>'
        f'{"".join(shapes)}</svg>'
    )


def main():
    if sys.argv[1] == "chart":
        print(chart(pathlib.Path(sys.argv[2]).read_text()))
        return 0
    if sys.argv[2:3] == ["hostile"]:
        measure_hostile(sys.argv[1], sys.argv[3:] or hostile.KINDS)
        return 0
    if sys.argv[2:3] == ["rows"]:
        print_rows(sys.argv[1], pathlib.Path(sys.argv[3]))
        return 0
    collection = Collection(sys.argv[1], pathlib.Path(sys.argv[2]))
    print("| Program | Text before | after | less | Loaded | pack | memory | runs kept | runs that break |")
    print("|---|---|---|---|---|---|---|---|---|")
    with tempfile.TemporaryDirectory() as folder:
        for entry in collection.manifest["executables"]:
            print(collection.figures(entry, pathlib.Path(folder) / "packed.elf"), flush=True)
    for line in collection.wrong:
        print(line, file=sys.stderr)
    return 1 if collection.wrong else 0


if __name__ == "__main__":
    sys.exit(main())
