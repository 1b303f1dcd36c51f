#!/usr/bin/env python3
"""Asks rows of the built programs, as `rt ci` leaves them, at the top of the repository:

    tools/test_programs.py [PROGRAM..]      no PROGRAM: all that have rows

tools/rows/PROGRAM.rows has a row a line: the words after the program's name, what it reads, what it must write, and where the status isn't 0 the status
and what it must say on standard error, or how that begins where it has no line feed at its end. Texts are Python literals, bytes are written b"..". A line
`writes: WORDS, FILE` has it write what a file of the repository holds, `file: NAME, TEXT` makes a file that words may name, `file: NAME, TEXT, COUNT, REST` one that has the text so often, and then the rest, `copies: FOLDER` makes all files of a folder of the repository, and `devices: WORDS, READ, WRITE` has the program run with a standard input that can't be read and a
standard output that takes nothing, and says what it must complain of; with `unread: WORDS, STATUS, COMPLAINT` it has the first, and mustn't see it.
`comes: WORDS, TEXT, WANTED, REST, WANTED` has the first text written while the rest hasn't come. `pieces: WORDS, TEXT, COUNT, REST` has the text so
often, and then the rest, and asks whether the same is written where it comes in small pieces. `parts: WORDS, TEXT, COUNT, REST` has
such a text split after line feeds, and asks whether the outputs of the parts are that of the whole, and `splits:` where `--split` says. `small: MEGABYTES, ROW` has a row's program take no
more memory, and what it reads and must write come so often as a last number says. `set: NAME=VALUE, ROW` has a row's program find that
in its environment. Other lines say nothing. Each row is asked of what either compiler built.

The options of a manual page, crates/PROGRAM/PROGRAM.1, must be those of the program's help. It ends with 'N passed, M failed', and with status 1 where a row fails or a program isn't there.
"""
import ast
import dataclasses
import os
import pathlib
import re
import shlex
import subprocess
import sys
import tempfile
import threading
from dataclasses import dataclass, field

BUILDS = ("", ".by-rattle")
# How long the parts of a text are at least, but the last one.
PART = 100_000
# How many bytes come at once where a text comes in pieces.
PIECE = 1021


@dataclass
class Row:
    """A run of a program, and what must come of it."""

    place: str
    words: list
    given: object
    wanted: bytes = b""
    status: int = 0
    complaint: bytes = b""
    devices: dict = field(default_factory=dict)
    setting: str = ""
    megabytes: int = 0

    def fault(self, program, folder):
        """Returns what is wrong where the program runs so, or None."""
        name, _, value = self.setting.partition("=")
        how = {"stdout": subprocess.PIPE, "stderr": subprocess.PIPE, **self.devices}
        how |= {"env": {**os.environ, name: value}} if name else {}
        how |= {"input": self.given} if isinstance(self.given, bytes) else {"stdin": self.given}
        limit = ["prlimit", f"--as={self.megabytes * 1_000_000}"] if self.megabytes else []
        ran = subprocess.run([*limit, program, *self.words], cwd=folder, timeout=60, check=False, **how)
        wrote, said = ran.stdout or b"", ran.stderr or b""
        is_said = said == self.complaint if self.complaint[-1:] in (b"", b"\n") else said.startswith(self.complaint)
        if ran.returncode == self.status and wrote == self.wanted and is_said:
            return None
        if self.megabytes:
            return f"{shlex.join(self.words)}, in {self.megabytes} MB: status {ran.returncode}, {len(wrote)} bytes written, said {said!r}"
        return f"{self.setting} {shlex.join(self.words)}: status {ran.returncode}, written {wrote!r}, said {said!r}".lstrip()


@dataclass
class Writes(Row):
    """A run that must write much."""

    def fault(self, program, folder):
        written = subprocess.run([program, *self.words], input=self.given, capture_output=True, cwd=folder, timeout=60, check=False).stdout
        if written == self.wanted:
            return None
        return f"{shlex.join(self.words)}: {len(written)} bytes, as wanted up to byte {len(os.path.commonprefix([written, self.wanted]))}"


@dataclass
class Comes(Row):
    """A run that must write something before all that it reads has come."""

    later: bytes = b""
    wanted_later: bytes = b""

    def fault(self, program, folder):
        with subprocess.Popen([program, *self.words], cwd=folder, stdin=subprocess.PIPE, stdout=subprocess.PIPE) as ran:
            killer = threading.Timer(60, ran.kill)
            killer.start()
            ran.stdin.write(self.given)
            ran.stdin.flush()
            first = ran.stdout.read(len(self.wanted))
            ran.stdin.write(self.later)
            ran.stdin.close()
            rest = ran.stdout.read()
            killer.cancel()
        if (ran.returncode, first, rest) == (0, self.wanted, self.wanted_later):
            return None
        return f"{shlex.join(self.words)}: status {ran.returncode}, written {first!r}, and then {rest!r}"


@dataclass
class Pieces(Row):
    """A run that must write of a text that comes in small pieces what it writes of the file that holds it."""

    def fault(self, program, folder):
        with tempfile.TemporaryFile() as file:
            file.write(self.given)
            file.seek(0)
            whole = subprocess.run([program, *self.words], stdin=file, capture_output=True, cwd=folder, timeout=60, check=True).stdout
        pieces = written_of([program, *self.words], [self.given[at : at + PIECE] for at in range(0, len(self.given), PIECE)], folder)
        return None if whole == pieces else f"{shlex.join(self.words)}: {len(whole)} bytes, and of pieces {len(pieces)}"


def written_of(command, pieces, folder):
    """Returns what a command writes where each piece of what it reads comes as one."""
    with subprocess.Popen(command, cwd=folder, stdin=subprocess.PIPE, stdout=subprocess.PIPE, bufsize=0) as ran:
        killer = threading.Timer(60, ran.kill)
        killer.start()
        writer = threading.Thread(target=write_each, args=(ran.stdin, pieces))
        writer.start()
        written = b"".join(iter(lambda: ran.stdout.read(1 << 16), b""))
        writer.join()
        killer.cancel()
    return written


def write_each(pipe, pieces):
    """Writes pieces to a pipe, one call each, and closes it."""
    for it in pieces:
        pipe.write(it)
    pipe.close()


@dataclass
class Parts(Row):
    """A run that must write of a text what it writes of its parts, which are split after line feeds, one after another."""

    def parts(self, _program, _folder):
        """Returns the parts of what it reads."""
        return re.findall(rb"(?s).{%d}[^\n]*\n|.+" % PART, self.given)

    def fault(self, program, folder):
        def written(text):
            return subprocess.run([program, *self.words], input=text, capture_output=True, cwd=folder, timeout=60, check=True).stdout

        parts = self.parts(program, folder)
        whole, joined = written(self.given), b"".join(map(written, parts))
        return None if whole == joined and len(parts) > 1 else f"{shlex.join(self.words)}: {len(whole)} bytes, and of {len(parts)} parts {len(joined)}"


@dataclass
class Splits(Parts):
    """.. which are split where the program itself says."""

    def parts(self, program, folder):
        """Returns those that it says there are, if they have as many bytes as is asked for, and are the whole."""
        command = [program, *self.words, "--split", str(PART)]
        ran = subprocess.run(command, input=self.given, capture_output=True, cwd=folder, timeout=60, check=True)
        ends = [tuple(map(int, line.split())) for line in ran.stdout.splitlines()]
        parts = [self.given[begin:end] for begin, end in ends]
        return parts if b"".join(parts) == self.given and all(len(part) >= PART for part in parts[:-1]) else []


@dataclass
class Rows:
    """What a file of rows holds."""

    rows: list = field(default_factory=list)
    files: dict = field(default_factory=dict)


def as_bytes(text):
    return text if isinstance(text, bytes) else text.encode()


def rows_with_devices(place, words, unread, unwritten, folder_as_input, full):
    """Returns the rows of a command whose devices fail."""
    words, unread, unwritten = shlex.split(words), as_bytes(unread), as_bytes(unwritten)
    yield Row(place, words, folder_as_input, b"", 1, unread)
    yield Row(place, words, b"ab", b"", 1, unwritten, {"stdout": full})
    yield Row(place, words, folder_as_input, b"", 1, b"", {"stderr": full})


def copies_of(folder):
    """Returns what each file of a folder has, by its name."""
    files = {}
    for name in sorted(os.listdir(folder)):
        with open(f"{folder}/{name}", "rb") as it:
            files[name] = it.read()
    return files


def read(path, folder_as_input, full):
    """Reads a file of rows."""
    found = Rows()
    with open(path, encoding="utf-8") as it:
        for number, line in enumerate(it, 1):
            kind, said = ("row", line) if line.startswith(('"', "'")) else line.partition(": ")[::2]
            if kind not in ("row", "writes", "file", "copies", "devices", "unread", "comes", "pieces", "parts", "splits", "small", "set"):
                continue
            place, fields = f"{os.path.basename(path)}:{number}", ast.literal_eval(f"({said.strip()},)")
            if kind == "file":
                name, text, *more = fields
                count, rest = more or (1, "")
                found.files[name] = as_bytes(text) * count + as_bytes(rest)
            elif kind == "copies":
                found.files |= copies_of(*fields)
            elif kind == "writes":
                words, file = fields
                found.rows.append(Writes(place, shlex.split(words), b"", pathlib.Path(file).read_bytes()))
            elif kind == "devices":
                found.rows += rows_with_devices(place, *fields, folder_as_input, full)
            elif kind == "unread":
                words, status, complaint = fields
                found.rows.append(Row(place, shlex.split(words), folder_as_input, b"", status, as_bytes(complaint)))
            elif kind == "comes":
                words, given, wanted, later, wanted_later = map(as_bytes, fields)
                found.rows.append(Comes(place, shlex.split(words.decode()), given, wanted, later=later, wanted_later=wanted_later))
            elif kind in ("pieces", "parts", "splits"):
                words, text, count, rest = fields
                made = {"pieces": Pieces, "parts": Parts, "splits": Splits}[kind]
                found.rows.append(made(place, shlex.split(words), as_bytes(text) * count + as_bytes(rest)))
            elif kind == "small":
                megabytes, words, given, wanted, count, *rest = fields
                status, complaint = rest or (0, "")
                row = Row(place, shlex.split(words), as_bytes(given) * count, as_bytes(wanted) * count, status, as_bytes(complaint))
                found.rows.append(dataclasses.replace(row, megabytes=megabytes))
            else:
                setting, *fields = fields if kind == "set" else ("", *fields)
                words, given, wanted, *rest = fields
                status, complaint = rest or (0, "")
                found.rows.append(Row(place, shlex.split(words), as_bytes(given), as_bytes(wanted), status, as_bytes(complaint), setting=setting))
    return found


def ask(program, found):
    """Asks the rows of a program, prints those that fail, and returns how many passed and failed."""
    with tempfile.TemporaryDirectory() as folder:
        for name, text in found.files.items():
            os.makedirs(os.path.dirname(f"{folder}/{name}"), exist_ok=True)
            with open(f"{folder}/{name}", "wb") as it:
                it.write(text)
        faults = [(row.place, row.fault(program, folder)) for row in found.rows]
    for place, fault in faults:
        if fault:
            print(f"{place} ({os.path.basename(program)}): {fault}")
    failed = sum(fault is not None for _, fault in faults)
    return len(faults) - failed, failed


def options_of(text):
    """Returns the long options that a text names."""
    return set(re.findall(r"--[a-z][a-z-]*", text))


def ask_manual(program, path):
    """Compares the options of a manual page with those of the program's help and of its kinds'."""
    def help_of(*words):
        return subprocess.run([program, *words, "--help"], capture_output=True, text=True, timeout=60, check=True).stdout

    kinds = [kind for kind in re.findall(r"(?m)^  ([a-z]+)  ", help_of()) if kind != "help"]
    with open(path, encoding="ascii") as it:
        options = it.read().partition(".SH EXAMPLES")[0]
    wanted = options_of("".join([help_of(), *map(help_of, kinds)]))
    written = options_of(options.replace("\\-", "-"))
    if kinds and written == wanted:
        return 1, 0
    print(f"{path} ({os.path.basename(program)}): {sorted(written ^ wanted)} not in both")
    return 0, 1


def main(names):
    passed = failed = 0
    os.environ.pop("SEGMENT_DICTIONARIES", None)
    folder_as_input, full = os.open("/", os.O_RDONLY), os.open("/dev/full", os.O_WRONLY)
    for file in sorted(os.listdir("tools/rows")):
        name = file.removesuffix(".rows")
        if names and name not in names:
            continue
        found = read(f"tools/rows/{file}", folder_as_input, full)
        built = [it for it in (os.path.abspath(f"crates/{name}/out/{name}{ending}") for ending in BUILDS) if os.path.isfile(it)]
        if not built:
            print(f"{name} isn't built: rt ci builds it")
            failed += 1
        for program in built:
            asked = [ask(program, found)]
            if os.path.isfile(manual := f"crates/{name}/{name}.1"):
                asked.append(ask_manual(program, manual))
            passed, failed = passed + sum(well for well, _ in asked), failed + sum(badly for _, badly in asked)
    print(f"{passed} passed, {failed} failed")
    return 1 if failed else 0


if __name__ == "__main__":
    sys.exit(main(sys.argv[1:]))
