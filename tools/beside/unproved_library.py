#!/usr/bin/env python3
"""unproved_library.py: builds the library for C before any proof, so that bindings can be tried in three minutes.

    tools/beside/unproved_library.py FOLDER      at the top of the repository; FOLDER gets libyengatomu.a and libyengatomu.so.0

    YENGATOMU_LIB_DIR=FOLDER tools/test_bindings TREE

It is no library to use: nothing in it is proved. `rt try` compiles a program, so the crate is copied, as a program that makes each call once; then
unproved.py takes the tests of the steps out, and the calls are given their names in C. What is linked is as tools/staticlib has it.
"""
import importlib.machinery
import importlib.util
import os
import pathlib
import re
import shutil
import subprocess
import sys
import tempfile

sys.dont_write_bytecode = True
HERE = pathlib.Path(__file__).resolve().parent
CRATE, PROGRAM, HEADER = "yengatomu_c", "yengatomu_calls", "bindings/include/yengatomu.h"
# What a call is given for a parameter of a type; of two buffers of one type the second gets another.
GIVEN = {
    "Global": ["alloc"], "&mut Slot": ["&mut slot"], "&Slot": ["&slot"], "Loan": ["Loan {}"], "&[u8]": ["&bytes"], "&[u16]": ["&units"],
    "&[&[u8]]": ["&words"], "usize": ["0"], "u32": ["1"], "bool": ["false"], "&mut usize": ["&mut error"],
    "&mut [usize]": ["&mut places", "&mut widths"], "&mut [u8]": ["&mut marks"],
}
MAIN = """
use std::io::Write;

fn main(rt: HostRuntime) {
    let alloc = rt.alloc();
    let mut slot = slot::nothing(alloc);
    let bytes: [u8; 4] = [97, 32, 98, 99];
    let units: [u16; 4] = [97, 32, 98, 99];
    let mut places = [0usize; 4];
    let mut widths = [0usize; 4];
    let mut marks = [0u8; 4];
    let mut error = 0usize;
    let words: [&[u8]; 1] = [&bytes];
    let mut sum: usize = 0;
    CALLS
    let _ = writeln!(rt.stdout(), "{}", sum);
}
"""
NOTHING = """
/// A slot that holds nothing.
pub fn nothing(alloc: Global) -> Slot {
    Slot {
        full: false,
        handle: Handle::empty(alloc),
    }
}
"""
CALL = re.compile(r'pub extern "C" fn (yengatomu_\w+)\((.*?)\)(?: -> (\w+))?\n', re.S)


def module(path):
    """Returns a script as a module."""
    loader = importlib.machinery.SourceFileLoader(path.stem, str(path))
    made = importlib.util.module_from_spec(importlib.util.spec_from_loader(path.stem, loader))
    loader.exec_module(made)
    return made


def call_of(path, found):
    """Returns the line of main that makes a call, which stands in the module at the path."""
    name, parameters, result = found.groups()
    given = {kind: list(values) for kind, values in GIVEN.items()}
    kinds = [it.split(":", 1)[1].strip() for it in re.split(r",\s*", parameters.strip().rstrip(",")) if it]
    values = [given[kind].pop(0) if len(given[kind]) > 1 else given[kind][0] for kind in kinds]
    made = f"{path}{name}({', '.join(values)})"
    value = {None: None, "Found": f"{made}.count"}.get(result, f"{made} as usize")
    return f"{made};" if value is None else f"sum = sum.wrapping_add({value});"


def calls_in(sources):
    """Returns the lines of main that make all calls: those that close a slot come last."""
    made = []
    for file in sorted(sources.rglob("*.rt")):
        parts = file.relative_to(sources).with_suffix("").parts
        path = "" if parts == ("main",) else "".join(f"{it}::" for it in parts)
        made += [call_of(path, found) for found in CALL.finditer(file.read_text())]
    return sorted(made, key=lambda line: "_close" in line)


def as_program(top):
    """Makes the program's crate in a copy of the repository."""
    sources = top / "crates" / PROGRAM / "src"
    shutil.copytree(top / "crates" / CRATE / "src", sources)
    (sources / "lib.rt").rename(sources / "main.rt")
    for file in sources.rglob("*.rt"):
        file.write_text(re.sub(r"(?m)^mod (\w+);", r"pub mod \1;", file.read_text()))
    with open(sources / "slot.rt", "a", encoding="utf-8") as it:
        it.write(NOTHING)
    lines = "\n    ".join(calls_in(sources))
    with open(sources / "main.rt", "a", encoding="utf-8") as it:
        it.write(MAIN.replace("CALLS", lines))
    crates = top / "crates.txt"
    needs = re.search(rf"(?m)^{CRATE} staticlib: (.*)$", crates.read_text())[1]
    crates.write_text(f"{crates.read_text()}{PROGRAM}: {needs}\n")


def named(lines, names):
    """Gives the calls in a module their names in C."""
    aliases = []
    for line in lines:
        yield line
        found = re.match(rf'define internal (?:\w+ )*?(\w+) @"({PROGRAM}::[\w:]*?(yengatomu_\w+))"\((.*?)\) #', line)
        if found and found[3] in names:
            kinds = ", ".join(it.split()[0] for it in found[4].split(", ") if it)
            aliases.append(f'@{found[3]} = alias {found[1]} ({kinds}), ptr @"{found[2]}"\n')
    yield from aliases


def compiled(unproved, room, toolchain, top, names):
    """Compiles the module that `rt try` made, and returns the object file."""
    before, after, made = room / "before.ll", room / "after.ll", room / "made.o"
    words = unproved.printed(room, toolchain, before)
    kit = toolchain.parent
    wants = unproved.asked([it for place in (top / "crates", kit / "rattle") for it in place.iterdir() if (it / "src").is_dir()])
    with open(before, encoding="utf-8") as old, open(after, "w", encoding="utf-8") as new:
        new.writelines(named(unproved.rewritten(old, wants), names))
    given = {"module.bc": str(after), "module.o": str(made), "-O0": "-O2", "-fPIE": "-fPIC"}
    kept = [given.get(word, word) for word in words if word and not word.startswith(("-fsanitize", "-Werror"))]
    subprocess.run([toolchain / "bin/clang", *kept, "-Wno-override-module"], check=True)
    return made


def linked(staticlib, room, made, folder):
    """Makes the archive and the shared library of the object, as tools/staticlib does, but without the program."""
    (room / "errno.c").write_text("int rattle_errno(void);\nint rattle_errno(void) { return 0; }\n")
    staticlib.called("cc", "-O1", "-fPIC", "-ffunction-sections", "-c", "errno.c", folder=room)
    asked = [f"--undefined={name}" for name in sorted(staticlib.calls_of(HEADER))]
    staticlib.called("ld", "-r", "--gc-sections", *asked, "-o", "calls.o", str(made), "errno.o", folder=room)
    staticlib.called("ar", "rcsD", "calls.a", "calls.o", folder=room)
    staticlib.link(staticlib.merged(f"{room}/calls.a", str(room)), str(room))
    folder.mkdir(parents=True, exist_ok=True)
    for name in (staticlib.ARCHIVE, staticlib.SHARED):
        shutil.copy(room / name, folder / name)
    link = folder / staticlib.LINK
    link.unlink(missing_ok=True)
    link.symlink_to(staticlib.SHARED)


def main(arguments):
    if len(arguments) != 1:
        sys.exit("usage: unproved_library.py FOLDER")
    folder, unproved, staticlib = pathlib.Path(arguments[0]).resolve(), module(HERE / "unproved.py"), module(HERE.parent / "staticlib")
    rt, kit = unproved.kit()
    with tempfile.TemporaryDirectory(prefix="unproved-") as made:
        room, top = pathlib.Path(made) / "room", pathlib.Path(made) / "repository"
        room.mkdir()
        shutil.copytree("crates", top / "crates", ignore=shutil.ignore_patterns("out"))
        shutil.copy("crates.txt", top)
        as_program(top)
        start = os.getcwd()
        os.chdir(top)
        unproved.try_program(rt, pathlib.Path("crates") / PROGRAM, kit / "toolchain", unproved.watched(kit / "toolchain", room))
        os.chdir(start)
        linked(staticlib, room, compiled(unproved, room, kit / "toolchain", top, staticlib.calls_of(HEADER)), folder)


if __name__ == "__main__":
    main(sys.argv[1:])
