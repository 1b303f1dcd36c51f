#!/usr/bin/env python3
"""threads.py: measures how fast C, Rust and Python count the words of a text in one, two and four threads that share one segmenter.

    tools/beside/threads.py [MEGABYTES]      MEGABYTES: how long the text is; none: 100

It compiles bindings/c/parallel.c and the example `parallel` of bindings/rust/yengatomu, and runs them and bindings/python/examples/parallel.py over
crates/speed/data/mixed.txt, repeated, each as often as RUNS says. Then it prints a row for each: MB a second of the best run, and how many times as fast as in
one thread. The time is that of counting, without reading the file, opening the segmenter and, in Python, copying the parts of the text. All must count the
same. It takes less than two minutes.

The library is that in bindings/lib, which tools/staticlib builds, or in the folder that YENGATOMU_LIB_DIR names.
"""
import os
import pathlib
import re
import subprocess
import sys
import tempfile

ROOT = pathlib.Path(__file__).resolve().parents[2]
BINDINGS = ROOT / "bindings"
THREADS, RUNS = (1, 2, 4), 3


def library():
    found = pathlib.Path(os.environ.get("YENGATOMU_LIB_DIR") or BINDINGS / "lib").resolve()
    if not (found / "libyengatomu.a").is_file():
        sys.exit(f"{found} has no library: tools/staticlib builds it")
    return found


def repeated(path, size):
    """Returns the lines of a file so often that they have about so many bytes."""
    text = path.read_bytes()
    return text * (size // len(text) + 1)


def programs(folder, lib):
    """Builds the programs, and returns the command and the environment of each by its language."""
    env = {**os.environ, "YENGATOMU_LIB_DIR": str(lib), "CARGO_TARGET_DIR": f"{folder}/target", "PYTHONPATH": str(BINDINGS / "python"), "PYTHONDONTWRITEBYTECODE": "1"}
    in_c = [os.environ.get("CC", "cc"), "-std=c99", "-O2", f"-I{BINDINGS}/include", "-o", f"{folder}/parallel", f"{BINDINGS}/c/parallel.c", f"{lib}/libyengatomu.a", "-pthread"]
    subprocess.run(in_c, check=True)
    subprocess.run(["cargo", "build", "--offline", "-q", "--release", "--example", "parallel"], cwd=BINDINGS / "rust/yengatomu", env=env, check=True)
    commands = {
        "C": [f"{folder}/parallel"],
        "Rust": [f"{folder}/target/release/examples/parallel"],
        "Python": [sys.executable, str(BINDINGS / "python/examples/parallel.py")],
    }
    return commands, env


def counted(command, path, threads, env):
    """Returns how many words a command counts, and the seconds of its best run."""
    runs = []
    for _ in range(RUNS):
        wrote = subprocess.run([*command, path, str(threads)], env=env, stdout=subprocess.PIPE, text=True, check=True).stdout
        count, seconds = re.fullmatch(r"(\d+) words in ([\d.]+) s\n", wrote).groups()
        runs.append((float(seconds), int(count)))
    return min(runs)[1], min(runs)[0]


def main(words):
    if len(words) > 1 or not all(it.isdigit() for it in words):
        sys.exit(__doc__)
    text, counts = repeated(ROOT / "crates/speed/data/mixed.txt", int((words or ["100"])[0]) * 1_000_000), set()
    with tempfile.TemporaryDirectory(prefix="threads-") as folder:
        path = f"{folder}/text"
        pathlib.Path(path).write_bytes(text)
        commands, env = programs(folder, library())
        print("language  1 thread" + "".join(f"{it:>3} threads" for it in THREADS[1:]))
        for language, command in commands.items():
            found = [counted(command, path, it, env) for it in THREADS]
            counts |= {count for count, _ in found}
            cells = [f"{len(text) / 1e6 / seconds:.0f}" + (f", {found[0][1] / seconds:.1f}" if at else "") for at, (_, seconds) in enumerate(found)]
            print(f"{language:8}{cells[0]:>10}" + "".join(f"{it:>11}" for it in cells[1:]), flush=True)
    if len(counts) != 1:
        sys.exit(f"not one count: {sorted(counts)}")


if __name__ == "__main__":
    main(sys.argv[1:])
