"""Counts the words of files over Dask, by the workers of a scheduler, on as many hosts as there are.

    python3 examples/dask_words.py SCHEDULER FILE..

Dask is Debian's python3-distributed. SCHEDULER is an address, as tcp://host:8786. Its workers must have this package, and find the files by the same
names. Files are split behind line feeds, which changes no word. Each worker has one segmenter, which its threads share. What a worker was asked that ended
is asked of another.
"""

import os
import sys

from distributed import Client, WorkerPlugin, get_worker

from yengatomu import Kind, Segmenter

# How many bytes a part has, up to the end of its last line.
SIZE = 16_000_000


class Words(WorkerPlugin):
    """Gives a worker its segmenter. Those that come later get one too."""

    name = "words"

    def setup(self, worker):
        worker.words = Segmenter(Kind.WORDS)


def parts(path, size=SIZE):
    """Yields the parts of a file, each as its path and where it begins and ends. All but the last end behind a line feed."""
    start, end = 0, os.stat(path).st_size
    with open(path, "rb") as it:
        while start < end:
            it.seek(start + size - 1)
            it.readline()
            stop = min(it.tell(), end)
            yield path, start, stop
            start = stop


def count_words(part):
    """Counts the words of a part of a file, in a worker."""
    path, start, stop = part
    with open(path, "rb") as it:
        it.seek(start)
        return get_worker().words.count_words(it.read(stop - start))


def asked(client, paths, size=SIZE):
    """Asks the workers for the counts of all parts of files, and returns them as futures."""
    # (later versions of Dask have it by the first name)
    register = getattr(client, "register_plugin", None) or client.register_worker_plugin
    register(Words())
    return client.map(count_words, [it for path in paths for it in parts(os.path.abspath(path), size)], pure=False)


def main(address, *paths):
    with Client(address) as client:
        print(sum(client.gather(asked(client, paths))))


if __name__ == "__main__":
    main(*sys.argv[1:])
