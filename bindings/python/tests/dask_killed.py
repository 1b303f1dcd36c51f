"""Three workers of Dask on this host, of which one is killed half-way, count the words that one process counts.

    YENGATOMU_LIB_DIR=../lib python3 tests/dask_killed.py FILE      in bindings/python

The corpus is made of the lines of FILE. It ends by itself within a minute, and leaves no process.
"""

import json
import os
import random
import signal
import subprocess
import sys
import tempfile
import time

HERE = os.path.dirname(os.path.abspath(__file__))
EXAMPLES = os.path.join(os.path.dirname(HERE), "examples")
sys.path[:0] = [os.path.dirname(HERE), EXAMPLES]

import dask_words  # noqa: E402
from distributed import Client  # noqa: E402

from yengatomu import Kind, Segmenter  # noqa: E402

WORKERS, LIMIT, SIZE = 3, 55, 20_000


def corpus(path, folder):
    """Writes files of a file's lines in random order: one without a line feed at its end, an empty one, and one that is a single line."""
    with open(path, "rb") as it:
        lines = it.read().splitlines(True)
    order, paths = random.Random(1), []
    for name, text in (
        ("a", b"".join(order.choices(lines, k=3000))),
        ("b", b"".join(order.choices(lines, k=3000)).rstrip(b"\n")),
        ("empty", b""),
        ("line", b" ".join(lines).replace(b"\n", b"") * 10),
    ):
        paths.append(f"{folder}/{name}")
        with open(paths[-1], "wb") as it:
            it.write(text)
    return paths


def started(module, folder, *words):
    """Starts a program of Dask on the loopback, at a free port."""
    env = {**os.environ, "PYTHONPATH": os.pathsep.join(sys.path[:2]), "OMP_NUM_THREADS": "1"}
    command = [sys.executable, "-m", f"distributed.cli.{module}", "--host", "127.0.0.1", "--no-dashboard", "--scheduler-file", f"{folder}/scheduler", *words]
    with open(f"{folder}/said", "ab") as said:
        return subprocess.Popen(command, stdin=subprocess.DEVNULL, stdout=said, stderr=said, env=env, cwd=folder)


def address_of(folder):
    """Waits until the scheduler has written its address, and returns it."""
    while True:
        try:
            with open(f"{folder}/scheduler", encoding="utf-8") as it:
                return json.load(it)["address"]
        except (FileNotFoundError, ValueError):
            time.sleep(0.05)


def counted_over(client, paths, worker):
    """Counts words while a worker is killed, and returns the count and how many parts were done before that."""
    futures = dask_words.asked(client, paths, SIZE)
    while (done := sum(it.done() for it in futures)) < len(futures) // 2:
        time.sleep(0.002)
    os.kill(worker.pid, signal.SIGKILL)
    if worker.wait() != -signal.SIGKILL:
        raise SystemExit("the worker had ended before")
    return sum(client.gather(futures)), done, len(futures)


def run(folder, path, processes):
    """Counts by this process, by the program, and over workers of which one is killed."""
    paths = corpus(path, folder)
    processes.append(started("dask_scheduler", folder, "--port", "0"))
    address = address_of(folder)
    processes += [started("dask_worker", folder, "--no-nanny", "--nthreads", "1", "--local-directory", folder, "--death-timeout", str(LIMIT)) for _ in range(WORKERS)]
    words = Segmenter(Kind.WORDS)
    wanted = 0
    for it in paths:
        with open(it, "rb") as file:
            wanted += words.count_words(file.read())
    with Client(address) as client:
        client.wait_for_workers(WORKERS)
        count, done, all_parts = counted_over(client, paths, processes[-1])
        left = len(client.scheduler_info()["workers"])
    program = subprocess.run([sys.executable, f"{EXAMPLES}/dask_words.py", address, *paths], env={**os.environ, "PYTHONPATH": sys.path[0]}, stdout=subprocess.PIPE, check=True)
    if (count, int(program.stdout), left) != (wanted, wanted, WORKERS - 1):
        raise SystemExit(f"{count} and {program.stdout} words, and not {wanted}; {left} workers are left")
    print(f"{wanted:,} words, one of {WORKERS} workers killed when {done} of {all_parts} parts were counted")


def too_long(*_):
    raise TimeoutError(f"it took more than {LIMIT} seconds")


def main(path):
    processes = []
    signal.signal(signal.SIGALRM, too_long)
    signal.alarm(LIMIT)
    with tempfile.TemporaryDirectory(prefix="dask-words-", ignore_cleanup_errors=True) as folder:
        try:
            run(folder, path, processes)
        except BaseException:
            if os.path.isfile(f"{folder}/said"):
                with open(f"{folder}/said", encoding="utf-8", errors="replace") as it:
                    sys.stderr.write(it.read()[-2000:])
            raise
        finally:
            for it in reversed(processes):
                it.kill()
                it.wait()


if __name__ == "__main__":
    main(*sys.argv[1:])
