#!/usr/bin/env python3
"""parts.py: what instructions are for: those of crates/speed by real data and of plain.c, part by part.

    tools/beside/parts.py toolchain KIT FOLDER       FOLDER: a toolchain as the kit's, whose clang keeps of each instruction the functions that it comes from
    rattle build .. --toolchain FOLDER ..            the program as rt ci builds it, with the same machine code
    gcc -g -O3 -I/tmp/plain -o /tmp/plain/plain tools/beside/plain.c
    tools/beside/parts.py table KIT SPEED PLAIN TEXTS [ENGINE]..

Figures are instructions a byte, ours less those of C, English/Thai/Chinese/mixed. Parts: decode (reads a code point), look (its class or symbol), verdict (the
table's entry, a walk; the machine's step, its state's mark), boundary (what comes between: calls, options, statuses), run (runs of complex characters), count (the
caller); all; and how many of all read or write the stack. `list` in place of `table` prints each instruction of one engine, ours and then C's.
"""
import os
import pathlib
import re
import subprocess
import sys
import tempfile
import time

ENGINES = (
    "grapheme-classic", "grapheme-neo", "sentence-classic", "sentence-neo", "word-classic", "word-neo", "line-classic", "line-17", "line-neo",
)
TEXTS = ("english", "thai", "chinese", "mixed")
PARTS = ("decode", "look", "verdict", "boundary", "run", "count")
# Of our functions, the first row that fits says which part it is; what fits none, or None, is part of its caller.
OURS = (
    (r"::tally_of(::<|$)", "count"),
    (r"::(place|seek|fork|is_at_end|end|offset|slice|up_to|new|drop|table|facts|get_or)(::<|$)", None),
    (r"^seg_text::indices::|::(next_item|next_symbol|next_element)(::<|$)", "decode"),
    (r"^seg_data::provider::table::|::(class|ascii_class|wide_class|strict_class|symbol|symbol_of_value|replacement_by|parts)(::<|$)|::machine_parts::", "look"),
    (r"^seg_pairs::runs::(?!Events)|^seg_text::prefixes::|^seg_clusters::(runs|complex|script_iter|pieces|cuts|spans)::|::inside_cuts::|::CutsLeft|::(complex_run|take_run|run_ends)(::<|$)", "run"),
    (r"Iterator::next(::<|$)|::(next_segment|next_boundary|next_event|plain_break|read|place_before)(::<|$)|^seg_text::reach::|^seg_(clusters|words|lines)::", "boundary"),
    (r"^seg_(pairs|machine|line_rules|line_turns)::", "verdict"),
)


def part_of_ours(chain):
    for function in chain:
        for pattern, part in OURS:
            if re.search(pattern, function):
                if part:
                    return part
                break
    return "boundary"


class Plain:
    """The parts of plain.c, by its functions and lines."""

    def __init__(self):
        self.lines = (pathlib.Path(__file__).resolve().parent / "plain.c").read_text(encoding="utf-8").splitlines()
        # Lines of loops over runs, up to the brace that ends each.
        self.runs = set()
        for i, line in enumerate(self.lines, 1):
            if "u8 before = script_before" in line:
                brace = line[: len(line) - len(line.lstrip())] + "}"
                while self.lines[i - 1] != brace:
                    self.runs.add(i)
                    i += 1

    def part(self, chain):
        function, number = chain[0]
        text = self.lines[number - 1] if number else ""
        if function == "found":
            return "count"
        # The scripts of runs have a table of their own.
        is_script = any("scripts" in self.lines[line - 1] for _, line in chain if line)
        if (function == "value_of" and not is_script) or "blocks[0]" in text:
            return "look"
        if function.startswith(("read", "is_trail", "value_at", "value_or")) or "p += len" in text:
            return "decode"
        if is_script or any(name.startswith("by_") and line in self.runs for name, line in chain):
            return "run"
        if function.startswith("pass_") or re.search(r"Tally tally|return tally|size_t len|for \(const u8|accepted = p, |accepted == p|p = accepted", text):
            return "boundary"
        return "verdict"


def marked(source):
    """Returns a module, as LLVM's text, in which each instruction has a place: its function, and its line there."""
    out, more, number, program, in_switch = [], [], 1000000, None, False
    for at, line in enumerate(source.split("\n"), 1):
        number += 1
        if line.startswith("define "):
            name = re.search(r'@("[^"]*"|[\w.$-]+)\(', line)[1].strip('"')
            program = number
            more.append(f'!{number} = distinct !DISubprogram(name: "{name}", linkageName: "{name}", scope: !900001, file: !900001, line: {at}, type: !900002, spFlags: DISPFlagDefinition, unit: !900000)')
            line = f"{line[:line.rindex('{')]}!dbg !{number} {{"
        elif line == "}":
            program = None
        elif program and line.startswith("  "):
            in_switch = not line.startswith("  ]") if in_switch else re.match(r"  switch .*\[$", line)
            if not in_switch:
                more.append(f"!{number} = !DILocation(line: {at}, scope: !{program})")
                line = f"{line}, !dbg !{number}"
        out.append(line)
    head = (
        "!llvm.dbg.cu = !{!900000}",
        "!llvm.module.flags = !{!900004, !900005}",
        "!900000 = distinct !DICompileUnit(language: DW_LANG_C99, file: !900001, emissionKind: FullDebug)",
        '!900001 = !DIFile(filename: "module.ll", directory: "/")',
        "!900002 = !DISubroutineType(types: !900003)",
        "!900003 = !{}",
        '!900004 = !{i32 2, !"Debug Info Version", i32 3}',
        '!900005 = !{i32 7, !"Dwarf Version", i32 5}',
    )
    return "\n".join((*out, *head, *more, ""))


def as_clang(clang, arguments):
    """Compiles as the kit's clang does, a module once it is marked."""
    if "module.bc" in arguments:
        at = arguments.index("-c")
        subprocess.run([clang, *arguments[:at], "-S", "-emit-llvm", "-Xclang", "-disable-llvm-passes", "-x", "ir", "module.bc", "-o", "plain.ll"], check=True)
        pathlib.Path("module.ll").write_text(marked(pathlib.Path("plain.ll").read_text()))
        arguments = [it if it != "module.bc" else "module.ll" for it in arguments]
    os.execv(clang, [clang, *arguments])


def toolchain(kit, folder):
    """Makes a toolchain of links to the kit's but for clang."""
    here = pathlib.Path(folder)
    (here / "bin").mkdir(parents=True)
    (here / "lib").symlink_to(f"{kit}/toolchain/lib")
    for it in pathlib.Path(f"{kit}/toolchain/bin").iterdir():
        if it.name != "clang":
            (here / "bin" / it.name).symlink_to(it)
    clang = here / "bin/clang"
    clang.write_text(f'#!/bin/sh\nexec {sys.executable} {os.path.realpath(__file__)} clang {kit}/toolchain/bin/clang "$@"\n')
    clang.chmod(0o755)


def counts(part, *command):
    """Runs a command in callgrind, and returns how often each instruction ran in a part of the run. No more than three parts are waited for."""
    found, is_call = {}, False
    with tempfile.TemporaryDirectory() as folder:
        how = ["--dump-instr=yes", "--compress-pos=no", "--compress-strings=no", f"--callgrind-out-file={folder}/pass"]
        with subprocess.Popen(["valgrind", "--tool=callgrind", *how, *command], stdout=subprocess.DEVNULL, stderr=subprocess.DEVNULL) as run:
            while run.poll() is None and not pathlib.Path(f"{folder}/pass.4").exists():
                time.sleep(0.05)
            run.kill()
        for line in pathlib.Path(f"{folder}/{part}").read_text().splitlines():
            if line.startswith("0x") and not is_call:
                address, _, count = line.split()[:3]
                found[int(address, 16)] = found.get(int(address, 16), 0) + int(count)
            is_call = line.startswith("calls=")
    return found


class Program:
    """A program's instructions, and the functions that each comes from."""

    def __init__(self, kit, path):
        self.kit, self.path, self.chains = kit, path, {}
        shown = subprocess.run(["objdump", "-d", "-M", "intel", "--no-show-raw-insn", path], stdout=subprocess.PIPE, text=True, check=True).stdout
        self.code = {int(it[1], 16): it[2] for it in re.finditer(r"^ +([0-9a-f]+):\t(.*)$", shown, re.MULTILINE)}

    def read_chains(self, addresses):
        """Asks for the chains of inlined functions, each function with its line."""
        missing = [it for it in addresses if it not in self.chains]
        words = ["llvm-symbolizer", f"--obj={self.path}", "--inlines", "--functions=linkage", "--no-demangle"]
        asked = "".join(f"{it:#x}\n" for it in missing)
        said = subprocess.run(words, executable=f"{self.kit}/toolchain/bin/clang", input=asked, stdout=subprocess.PIPE, text=True, check=True).stdout
        for address, block in zip(missing, said.split("\n\n")):
            rows = block.strip().split("\n")
            self.chains[address] = [(name, int(place.rsplit(":", 2)[-2])) for name, place in zip(rows[::2], rows[1::2])]


def figures(program, measured, length):
    """Returns for each address of the program its figures, a text each. What runs elsewhere counts as the address 0."""
    found = {}
    for i, counted in enumerate(measured):
        for address, count in counted.items():
            # Callgrind's addresses are those of the file.
            address = address if address in program.code else 0
            found.setdefault(address, [0.0] * len(TEXTS))[i] += count / length
    program.read_chains(it for it in found if it)
    return found


def parts_of(program, found, part):
    """Returns the part of each address. An instruction of no line is of the part of the one after it."""
    parts, last = {0: "count"}, "count"
    for address in sorted(found, reverse=True):
        if address:
            chain = program.chains[address]
            if chain[0][1]:
                last = part(chain)
            parts[address] = last
    return parts


def measure(kit, speed, plain, texts, engine):
    """Returns, of ours and of C's, the program, the figures and the parts of each address."""
    names = [f"{texts}/{name}.txt" for name in TEXTS]
    length = os.path.getsize(names[0])
    ours = [counts("pass.3", "--dump-before=speed::segmenter::tally*", speed.path, engine, name) for name in names]
    theirs = [counts("pass", "--toggle-collect=pass_*", plain.path, name, engine) for name in names]
    rules = Plain()
    for program, measured, part in ((speed, ours, lambda chain: part_of_ours([name for name, _ in chain])), (plain, theirs, rules.part)):
        found = figures(program, measured, length)
        yield program, found, parts_of(program, found, part)


def sums(found, parts):
    total = {part: [0.0] * len(TEXTS) for part in PARTS}
    for address, row in found.items():
        total[parts[address]] = [a + b for a, b in zip(total[parts[address]], row)]
    return total


def on_stack(program, found):
    """Returns the figures of what reads or writes the stack."""
    rows = [row for address, row in found.items() if re.search(r"\[rsp|^(push|pop)\b", program.code.get(address, ""))]
    return [sum(it) for it in zip(*rows)] or [0.0] * len(TEXTS)


def show(row):
    return "/".join(f"{it:.1f}" if abs(it) < 9.95 else f"{it:.0f}" for it in row).replace("-0.0", "0.0")


def table(kit, speed, plain, texts, *engines):
    programs = Program(kit, speed), Program(kit, plain)
    print(f"{'engine':17}" + "".join(f"{part:21}" for part in (*PARTS, "all", "stack")))
    for engine in engines or ENGINES:
        ours, theirs = ([*sums(found, parts).values(), on_stack(it, found)] for it, found, parts in measure(kit, *programs, texts, engine))
        *rows, stack = ([a - b for a, b in zip(*both)] for both in zip(ours, theirs))
        print(f"{engine:17}" + "".join(f"{show(row):21}" for row in (*rows, [sum(it) for it in zip(*rows)], stack)), flush=True)


def listing(kit, speed, plain, texts, engine):
    for program, found, parts in measure(kit, Program(kit, speed), Program(kit, plain), texts, engine):
        print(program.path, {part: show(row) for part, row in sums(found, parts).items()})
        last = 0
        for address, row in sorted(found.items()):
            if max(row) >= 0.02:
                if row != last:
                    print()
                last = row
                chain = " < ".join(f"{re.sub('::<.*', '', name)}:{line}" for name, line in program.chains.get(address, [("elsewhere", 0)]))
                print(f"{address:7x} {' '.join(f'{it:5.2f}' for it in row)} {parts[address]:8} {program.code.get(address, ''):50.50} {chain}")


def main(arguments):
    verbs = {"clang": lambda clang, *words: as_clang(clang, list(words)), "toolchain": toolchain, "table": table, "list": listing}
    if len(arguments) < 3 or arguments[0] not in verbs:
        sys.exit(__doc__)
    verbs[arguments[0]](*arguments[1:])


if __name__ == "__main__":
    main(sys.argv[1:])
