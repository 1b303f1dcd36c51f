#!/usr/bin/env python3
"""search.py: the tables of bindings/sqlite/README.md, 'Beside other tokenizers': how fast SQLite and PostgreSQL index pages, how large the index is, and which words are found.

    tools/beside/search.py [TREE]

It is called as tools/test_search is, and takes its pages and its server. Times are the best of three, in one process. The size of an index is that of its
data once it is optimised, beside that of the texts. Of a query, `2 of 3` means that two of three right answers are found, and `+1` that there is a wrong one.
"""
import importlib.machinery
import importlib.util
import os
import sys
import tempfile
import time

sys.dont_write_bytecode = True
ROOT = os.path.dirname(os.path.dirname(os.path.dirname(os.path.realpath(__file__))))
# Language, query, texts that have the word, and texts that have its letters.
QUERIES = (
    ("English", "3.14", ("Pi is 3.14.",), ("See pages 3, 14 and 15.",)),
    ("English", "résumé", ("Send a résumé.", "Send a RESUME by mail."), ("They resume work.",)),
    ("French", "été", ("Un été chaud.", "C’est l’été."), ("Une bonté rare.",)),
    ("Hindi", "दिन", ("दिन लंबा है।",), ("दान दो।",)),
    ("Thai", "ไทย", ("เรียนภาษาไทยทุกวัน", "อาหารไทยอร่อย"), ()),
    ("Thai", "ตา", ("ตาเจ็บมาก",), ("ตารางเวลา", "น้ำตาลหวาน")),
    ("Chinese", "中国", ("他说中国话", "中国的经济"), ("发展中国家的经济",)),
    ("Chinese", "学生", ("他是大学的学生",), ("大学生活很好",)),
    ("Japanese", "京都", ("京都に行く",), ("東京都に行く",)),
    ("Japanese", "日本語", ("日本語を勉強する", "これは日本語の本です"), ()),
)


def loaded(name):
    """Returns a tool as a module."""
    loader = importlib.machinery.SourceFileLoader(name, f"{ROOT}/tools/{name}")
    made = importlib.util.module_from_spec(importlib.util.spec_from_loader(name, loader))
    loader.exec_module(made)
    return made


tests = loaded("test_search")


def tokenizers(suite):
    """Returns what SQLite's tables are made with."""
    return (("unicode61", "unicode61"), ("trigram", "trigram"), ("yengatomu", "yengatomu"), ("yengatomu, dictionaries", f"yengatomu dictionaries '{suite.words}'"))


def row(*cells):
    print(f"| {' | '.join(cells)} |", flush=True)


def figures(suite, name, seconds, size):
    text = sum(map(len, suite.pages))
    row(name, f"{len(suite.pages) / seconds:,.0f}", f"{text / seconds / 1e6:.1f}", f"{size / text:.2f}")


def time_sqlite(suite):
    for name, tokenizer in tokenizers(suite):
        best, size = float("inf"), 0
        for _ in range(3):
            db = tests.connected(suite, tokenizer)
            tests.found_by(db, "a")
            start = time.perf_counter()
            db.execute("BEGIN")
            db.executemany("INSERT INTO pages(body) VALUES(?)", ((it.decode(),) for it in suite.pages))
            db.execute("COMMIT")
            best = min(best, time.perf_counter() - start)
            db.execute("INSERT INTO pages(pages) VALUES('optimize')")
            size = db.execute("SELECT sum(length(block)) FROM pages_data").fetchone()[0]
        figures(suite, f"SQLite, {name}", best, size)


def time_postgres(suite):
    for name, database, configuration in (("default (`simple`)", "words", "simple"), ("yengatomu", "plain", "yengatomu"), ("yengatomu, dictionaries", "words", "yengatomu")):
        call = f"to_tsvector('{configuration}', body)"
        once = f"SELECT clock_timestamp() AS start \\gset\nSELECT sum(length({call})) AS n FROM pages \\gset\nSELECT extract(epoch FROM clock_timestamp() - :'start');\n"
        lines = suite.server.wrote(f"SELECT {call} FROM pages LIMIT 0;\n{once * 4}", database)
        made = f"CREATE TABLE f AS SELECT {call} AS found FROM pages; CREATE INDEX f_found ON f USING gin (found) WITH (fastupdate = off); VACUUM f;"
        size = suite.server.wrote(f"{made} SELECT pg_relation_size('f_found'); DROP TABLE f;", database)[-1]
        figures(suite, f"PostgreSQL, {name}", min(map(float, lines[-3:])), int(size))


def in_sqlite(suite, tokenizer, query, texts):
    db = tests.filled(suite, tokenizer, [it.encode() for it in texts])
    return tests.found_by(db, tests.quoted(query))


def in_postgres(suite, configuration, query, texts):
    rows = tests.rows_for("t", ((str(at), it) for at, it in enumerate(texts)))
    ask = f"SELECT n FROM t WHERE to_tsvector('{configuration}', body) @@ phraseto_tsquery('{configuration}', '{query}')"
    return set(map(int, suite.server.wrote(f"CREATE TEMP TABLE t (n int, body text);\n{rows}{ask};")))


def answer(found, right):
    wrong = sum(it >= right for it in found)
    return f"{len(found) - wrong} of {right}{f' +{wrong}' if wrong else ''}"


def show_queries(suite):
    behind = [it for it in tokenizers(suite) if it[0] != "yengatomu"]
    row("query", *(f"SQLite, {name}" for name, _ in behind), "PostgreSQL, default", "PostgreSQL, yengatomu, dictionaries")
    row(*["---"] * (3 + len(behind)))
    for language, query, right, others in QUERIES:
        texts = right + others
        found = [in_sqlite(suite, tokenizer, query, texts) for _, tokenizer in behind]
        found += [in_postgres(suite, configuration, query, texts) for configuration in ("simple", "yengatomu")]
        row(f"{language} {query}", *(answer(it, len(right)) for it in found))


def main(words):
    if len(words) > 1 or words[:1] in (["-h"], ["--help"]):
        print(__doc__, file=sys.stderr)
        return 2
    lib = os.path.realpath(os.environ.get("YENGATOMU_LIB_DIR") or f"{tests.BINDINGS}/lib")
    os.umask(0o022)
    with tempfile.TemporaryDirectory(prefix="search-", dir="/tmp") as room:
        os.chmod(room, 0o755)
        suite = tests.Suite(lib, os.path.realpath(words[0]) if words else ROOT, room)
        try:
            tests.prepare(suite)
            tests.test_build_sqlite(suite)
            tests.test_start(suite)
            row("", "pages a second", "MB a second", "index, of the text")
            row("---", "---", "---", "---")
            time_sqlite(suite)
            time_postgres(suite)
            print()
            show_queries(suite)
        finally:
            if suite.server:
                suite.server.stop()
    return 0


if __name__ == "__main__":
    sys.exit(main(sys.argv[1:]))
