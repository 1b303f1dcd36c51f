#!/usr/bin/env python3
"""inlined.py: compiles what a proved program was compiled from once more, with other hints on inlining, so that a hint is tried in half a minute.

    tools/beside/inlined.py prove CRATE FOLDER                      at the top of the repository: runs `rt ci CRATE`, and keeps the program's module in FOLDER
    tools/beside/inlined.py build FOLDER PROGRAM [PATTERN=HINT]..   compiles that module as the kit does; functions whose name has the pattern get the hint
    tools/beside/inlined.py dropped FOLDER                          at the top: the functions that ask to be in line, and that the kit found too large for it

A hint is `always`, `never` or `none`. With no hint given the machine code is that of the proved program. FOLDER/module.ll is the module as text: what else is to be
tried can be written there by hand. What is kept of earlier runs isn't compiled again, so CRATE is best a small new program over libraries that are kept.
"""
import pathlib
import re
import subprocess
import sys

sys.dont_write_bytecode = True
sys.path.insert(0, str(pathlib.Path(__file__).resolve().parent))
from unproved import asked, inline_of, kit, printed, watched  # noqa: E402

HINTS = {"always": " alwaysinline ", "never": " noinline "}
# Stands in the prover's place: has it take another toolchain.
SHIM = """\
#!/bin/bash
words=()
for word in "$@"; do [ "$word" = {theirs} ] && word={ours}; words+=("$word"); done
exec {prover} "${{words[@]}}"
"""


def prove(crate, folder):
    """Runs `rt ci CRATE` with a toolchain that keeps what clang is given, and takes the largest module out of that."""
    rt, top = kit()
    room = pathlib.Path(folder).resolve()
    room.mkdir(parents=True)
    shim = room / "rattle"
    shim.write_text(SHIM.format(theirs=top / "toolchain", ours=watched(top / "toolchain", room), prover=rt.rtlib.RATTLE))
    shim.chmod(0o755)
    rt.rtlib.RATTLE = str(shim)
    rt.main(["ci", crate])
    words = printed(room, top / "toolchain", room / "module.ll")
    (room / "words").write_text("\n".join(word.replace(str(room / "toolchain"), str(top / "toolchain")) for word in words))


def group_of(text, hint):
    """Returns the attributes that the module gives to functions with a hint, or with none."""
    for group, words in re.findall(r"^attributes (#\d+) = \{(.*)\}$", text, re.MULTILINE):
        has = [hint for hint, word in HINTS.items() if word in words]
        if "target-cpu" in words and "cold" not in words and "inlinehint" not in words and has == [hint] * (hint != "none"):
            return group
    sys.exit(f"no function of the module has the hint {hint}")


def hinted(text, pattern, hint):
    """Gives the hint to the functions whose name has the pattern."""
    group = group_of(text, hint)
    names = re.compile(rf'^(define .*@"[^"]*{pattern}[^"]*".*) #\d+ \{{$', re.MULTILINE)
    changed, count = names.subn(rf"\1 {group} {{", text)
    print(f"{pattern}: {count} functions, {hint}")
    return changed


def build(folder, program, *hints):
    room, program = pathlib.Path(folder), pathlib.Path(program).resolve()
    top = kit()[1]
    text = (room / "module.ll").read_text()
    for it in hints:
        text = hinted(text, *it.rsplit("=", 1))
    source, made = room / "hinted.ll", room / "hinted.o"
    source.write_text(text)
    given = {"module.bc": str(source), "module.o": str(made)}
    words = [given.get(word, word) for word in (room / "words").read_text().split("\n") if word != "-Werror"]
    subprocess.run([top / "toolchain/bin/clang", *words, "-Wno-everything"], check=True)
    link = [top / "bin/rattle-link", "--target", "x86_64-unknown-linux-gnu", "--toolchain", top / "toolchain", "-o", program, made]
    subprocess.run([*link, top / "c/libos_c.a", top / "c/liblibc_c.a"], check=True, stdout=subprocess.DEVNULL)


def dropped(folder):
    """Prints the functions whose source has `inline(always)`, and the module not."""
    text = (pathlib.Path(folder) / "module.ll").read_text()
    always = {group for group, words in re.findall(r"^attributes (#\d+) = \{(.*)\}$", text, re.MULTILINE) if "alwaysinline" in words}
    wants = asked([it for it in pathlib.Path("crates").iterdir() if (it / "src").is_dir()])
    for name, group in re.findall(r'^define [^"\n]*@"([^"]*)".* (#\d+) \{$', text, re.MULTILINE):
        if inline_of(name, wants) == "alwaysinline" and group not in always:
            print(name)


def main(arguments):
    verb, *rest = arguments or [""]
    if verb == "prove" and len(rest) == 2:
        prove(*rest)
    elif verb == "dropped" and len(rest) == 1:
        dropped(*rest)
    elif verb == "build" and len(rest) >= 2:
        build(*rest)
    else:
        sys.exit(__doc__)


if __name__ == "__main__":
    main(sys.argv[1:])
