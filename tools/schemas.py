#!/usr/bin/env python3
"""Writes crates/schemas_main/stdin and crates/schemas_main/stdout: schemas, and what reading each must give.

    tools/schemas.py                     write both files
    tools/schemas.py --check             compare both files with what would be written, and say which differ
    tools/schemas.py --show              print each schema, as far as 100 bytes, and its result
    tools/schemas.py [..] HISTORIES      with the histories of another file

The first 47 schemas are those of the project's histories (tests/host/histories.txt.gz, or the file HISTORIES, packed or not): all that are refused and the first
24 of at most 700 bytes that are accepted. Their verdicts, accepted or refused, are compared with the history's, which an implementation worked out
that shares no code with this repository. The other 35 are written here, one for each rule that the histories show too seldom.

What must come of a schema is worked out from docs/RULES.md (sections L, T and S; tools/rules.py reads a schema, by Python's own json and not by this
repository's reader) and the cells of crates/model/specs/Packed.antt. stdin has each schema after its length in two bytes; stdout is what the program
`schemas_main` has to print: a line for the database, each table and each column, with its number, its name and the bytes of its cell after the name, or "refused".
"""
import gzip
import os
import sys

sys.dont_write_bytecode = True
from rules import BASES, Refused, read_schema

TOP = os.path.join(os.path.dirname(os.path.abspath(__file__)), "..")
ACCEPTED, LONGEST = 24, 700  # of the histories' schemas that are accepted


# ── cells: crates/model/specs/Packed.antt ──
def eight(n):
    return n.to_bytes(8, "big", signed=True)


def cell(name, rest):
    """48 bytes: the name's length, the name in 24 bytes, and the rest."""
    return (bytes([len(name)]) + name.encode().ljust(24, b"\0") + rest).ljust(48, b"\0")


def column_cell(c):
    return cell(c.name, bytes([BASES.index(c.base), c.how, c.table, c.min, c.max, c.mutable]) + eight(c.low) + eight(c.high))


def table_cell(t):
    indexes = b"".join(bytes([len(index), *index]).ljust(4, b"\0") for index in t.indexes)
    return cell(t.name, bytes([len(t.columns), t.root, t.max_rows is not None]) + eight(t.max_rows or 0) + bytes([len(t.indexes)]) + indexes)


def line(word, number, cell):
    return "%s %d %s %s\n" % (word, number, cell[1 : 1 + cell[0]].decode(), cell[25:].hex())


def result(text):
    """What the program prints of a schema."""
    try:
        s = read_schema(text)
    except Refused:
        return "refused\n"
    lines = [line("database", 0, cell(s.name.decode(), bytes([len(s.tables)])))]
    for i, t in enumerate(s.tables):
        lines.append(line(" table", i, table_cell(t)))
        lines += [line("  column", j, column_cell(c)) for j, c in enumerate(t.columns)]
    return "".join(lines)


# ── the table ──
def of(tables, name="d", version="0.0.1", more=""):
    return ('{"name":"%s","version":"%s","tables":{%s}%s}' % (name, version, tables, more)).encode()


def one(columns, more="", name="A"):
    """A table."""
    return '"%s":{"columns":{%s}%s}' % (name, columns, more)


def integers(names, more=""):
    return ",".join('"%s":{"type":"integer"%s}' % (w, more) for w in names)


def several(names):
    return ",".join(one(integers("x"), name=w) for w in names)


def written():
    """The schemas that are written here."""
    refers = '"x":{"type":{"key":{"type":"uuid","refTable":"%s"}}}'
    return [
        # a repeated table, a repeated column
        of(",".join([one(""), one("", name="B"), one(integers("x"))])),
        of(one('"x":{"type":"integer"},"y":{"type":"uuid"},"x":{"type":"boolean"}', ',"indexes":[["x","y"]]')),
        # maxRows, isRoot, columns
        of(one("", ',"maxRows":1')),
        of(one("", ',"maxRows":0')),
        of(one("", ',"maxRows":9223372036854775808')),
        of(one("", ',"maxrows":1')),
        of(one("", ',"isRoot":1')),
        of('"A":{"maxRows":1}'),
        of('"A":{"columns":[]}'),
        of('"A":[]'),
        # 4 and 5 tables, 6 and 7 columns
        of(several("ABCD")),
        of(several("ABCDE")),
        of(one(integers("c%d" % i for i in range(6)))),
        of(one(integers("c%d" % i for i in range(7)))),
        # indexes and references
        of(one(integers("x"), ',"indexes":[["y"]]')),
        of(one(integers("x", ',"ephemeral":true'), ',"indexes":[["x"]]')),
        of(one(integers("x"), ',"indexes":[["x"],["x"],["x"]]')),
        of(one(refers % "B") + "," + one("", name="B")),
        of(one(refers % "C") + "," + one("", name="B")),
        # ids of tables, 24 and 25 bytes
        of(one("", name="_A")),
        of(one("", name="a" * 24)),
        of(one("", name="a" * 25)),
        # the members of the schema
        of(""),
        of("", more=',"cksum":"1 2"'),
        of("", more=',"cksum":12'),
        of("", more=',"other":"1 2"'),
        of("", name="1d"),
        of("", version=".".join(d * 40 for d in "123")),
        of("", version="1.2"),
        of("", version="1\\u002e2.3"),
        b'{"name":"d","version":"1.2.3"}',
        b"[]",
        b"",
        # 4,096 and 4,097 bytes
        of("").ljust(4096),
        of("").ljust(4097),
    ]


def histories(path):
    """Those of the histories' schemas that are taken, with their verdicts."""
    left = ACCEPTED
    with (gzip.open if path.endswith(".gz") else open)(path, "rt") as lines:
        for f in map(str.split, lines):
            if f[0] == "START_STORE":
                text = b"" if f[1] == "-" else bytes.fromhex(f[1])
                if f[3] != "0":
                    yield text, True
                elif left and len(text) <= LONGEST:
                    left -= 1
                    yield text, False


def main():
    given = [a for a in sys.argv[1:] if not a.startswith("--")]
    texts, results = [], []
    for text, refused in histories(given[0] if given else os.path.join(TOP, "tests/host/histories.txt.gz")):
        texts.append(text)
        results.append(result(text))
        if (results[-1] == "refused\n") != refused:
            sys.exit("another verdict than the history's: %r" % text)
    texts += written()
    results += map(result, texts[len(results) :])
    if "--show" in sys.argv:
        for text, r in zip(texts, results):
            print(text[:100].decode("utf-8", "backslashreplace"), r, sep="\n")
        return
    files = {"stdin": b"".join(len(t).to_bytes(2, "big") + t for t in texts), "stdout": "".join(results).encode()}
    same = True
    for name, content in files.items():
        path = os.path.join(TOP, "crates", "schemas_main", name)
        if "--check" not in sys.argv:
            with open(path, "wb") as out:
                out.write(content)
        elif open(path, "rb").read() != content:
            same = False
            print("crates/schemas_main/%s differs" % name)
    if "--check" in sys.argv:
        print("%d schemas, %s" % (len(texts), "the same" if same else "not the same"))
        sys.exit(0 if same else 1)


main()
