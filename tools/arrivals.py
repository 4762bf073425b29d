#!/usr/bin/env python3
"""Writes crates/arrivals_main/stdin and crates/arrivals_main/stdout: calls on a mirror, and what each must answer.

    tools/arrivals.py HISTORIES          write both files
    tools/arrivals.py --show HISTORIES   print the calls and the answers

HISTORIES has histories worked out by an implementation that shares no code with this repository, one call a line (START_MIRROR schema run refusal;
HEAR record answer n highest level; ROW table id there; COLUMN table id column count atoms). The answers are taken from it. Before them come
document 01's readings of a mirror and areas in no good order or of another length, whose answers are document 01's and written here by hand.
"""
import os
import sys

MOST = 60000  # bytes of calls
SCHEMA = b'{"name":"bath","version":"1.0.0","tables":{"Probe":{"columns":{"name":{"type":"string"}},"isRoot":true}}}'
ROW = (1).to_bytes(16, "big")


def four(n):
    return n.to_bytes(4, "big")


def line(word, *rest):
    return " ".join([word] + [str(r) for r in rest])


def progress(answer, n, level):
    return line(": " + answer, n, level)


def start(schema, run):
    return b"\1" + four(run) + schema


def hear(record):
    return b"\2" + record


def row(table, key):
    return bytes([3, table]) + key


def column(table, key, c):
    return bytes([4, table]) + key + bytes([c])


def spoil(at, byte):
    return b"\5" + at.to_bytes(2, "big") + bytes([byte])


def short(call):
    return b"\6" + call


def contents(count, atoms):
    return line("column accepted", (bytes([count]) + atoms).rstrip(b"\0").hex())


def records():
    """The 163 bytes of document 01's first reading, one record each."""
    born = b"\1" + four(1) + four(1) + b"\0" + ROW
    name = b"\3" + four(1) + four(2) + b"\0" + ROW + b"\0\1" + (b"\4pH-1").ljust(100, b"\0")
    return born, name, b"\4" + four(1) + four(3)


def readings():
    born, name, end = records()
    mark = b"\5" + four(1) + four(3)
    # 1, 3, 2: n is 2, highest 3, not level; 3 again: n is 3
    yield start(SCHEMA, 1), "start accepted" + progress("accepted", 0, 0)
    yield hear(born), "hear applied" + progress("accepted", 1, 0)
    yield hear(end), "hear behind" + progress("accepted", 1, 0)
    yield row(0, ROW), "row accepted 1"
    yield column(0, ROW, 0), contents(1, b"")
    yield hear(name), "hear applied" + progress("accepted", 2, 0)
    yield column(0, ROW, 0), contents(1, name[28:])
    yield hear(end), "hear applied" + progress("accepted", 3, 1)
    yield hear(mark), "hear heard" + progress("accepted", 3, 1)
    yield hear(born), "hear repeat" + progress("accepted", 3, 1)
    # a mark is heard first, and then the records come: level at the end, not at the highest number before
    yield start(SCHEMA, 1), "start accepted" + progress("accepted", 0, 0)
    yield hear(b"\5" + four(1) + four(0)), "hear heard" + progress("accepted", 0, 1)
    yield hear(mark), "hear heard" + progress("accepted", 0, 0)
    for record, n, level in ((born, 1, 0), (name, 2, 0), (end, 3, 1)):
        yield hear(record), "hear applied" + progress("accepted", n, level)
    # another run, another length, number 0, a table and a column that there are not, an id of zeros, a row twice
    yield hear(b"\4" + four(2) + four(4)), "hear 9" + progress("accepted", 3, 1)
    for bad in (b"", end[:-1], end + b"\0", b"\6" + end[1:], b"\4" + four(1) + four(0), born[:9] + b"\1" + ROW, b"\1" + four(1) + four(4) + b"\0" + ROW,
                born[:10] + bytes(16), name[:26] + b"\1" + name[27:], name[:27] + b"\2" + name[28:]):
        yield hear(bad), "hear 8" + progress("accepted", 3, 1)
    yield row(1, ROW), "row accepted 0"
    yield column(0, ROW, 1), contents(0, b"")
    yield column(0, bytes(16), 0), contents(0, b"")
    # refusal 2 before refusal 1, and a refused call leaves the area: one that was put out of order and back is level again
    for spoiled in (False, True):
        if spoiled:
            yield spoil(1399, 1), "put" + progress("1", 0, 0)
        answer = "1" if spoiled else "accepted"
        yield short(hear(end)), "hear 2" + progress("2", 0, 0)
        yield short(row(0, ROW)), "row 2 0"
        yield short(column(0, ROW, 0)), "column 2 "
        yield short(start(SCHEMA, 1)), "start 2" + progress("2", 0, 0)
        yield short(start(b"{}", 1)), "start 2" + progress("2", 0, 0)
        yield row(0, ROW), "row %s %d" % (answer, not spoiled)
    yield hear(end), "hear 1" + progress("1", 0, 0)
    yield hear(b""), "hear 1" + progress("1", 0, 0)
    yield column(0, ROW, 0), "column 1 "
    yield start(b"{}", 1), "start 3" + progress("1", 0, 0)
    yield spoil(1399, 0), "put" + progress("accepted", 3, 1)


def of_mirror(calls):
    for c in calls:
        f = [b"" if x == "-" else x for x in c.split()]
        if f[0] == "START_MIRROR":
            yield start(bytes.fromhex(f[1] or ""), int(f[2])), "start accepted" + progress("accepted", 0, 0) if f[3] == "0" else line("start", f[3])
        elif f[0] == "HEAR":
            yield hear(bytes.fromhex(f[1] or "")), line("hear", f[2]) + progress("accepted", f[3], f[5])
        elif f[0] == "ROW":
            yield row(int(f[1]), bytes.fromhex(f[2])), line("row accepted", f[3])
        else:
            yield column(int(f[1]), bytes.fromhex(f[2]), int(f[3])), contents(int(f[4]), bytes.fromhex(f[5]))


def mirrors(path):
    """The calls on each mirror, those of the store left out."""
    found = []
    for l in open(path):
        if l.startswith("START_MIRROR"):
            found.append([l])
        elif l.split(" ", 1)[0] in ("HEAR", "ROW", "COLUMN"):
            found[-1].append(l)
    return found


def main():
    table = list(readings())
    size = sum(2 + len(c) for c, _ in table)
    # of each mirror the calls at its front, so that many mirrors fit; a start that is refused leaves the mirror before it as it was
    told = progress("accepted", 3, 1)
    for m in mirrors(sys.argv[-1]):
        calls = [(c, a if ":" in a or not a.startswith("start") else a + told) for c, a in of_mirror(m[:45])]
        more = sum(2 + len(c) for c, _ in calls)
        if size + more <= MOST:
            table += calls
            size += more
            told = [a[a.index(":"):] for _, a in calls if ":" in a][-1]
    if "--show" in sys.argv:
        for c, a in table:
            print(c.hex(), a)
        return
    top = os.path.join(os.path.dirname(os.path.abspath(__file__)), "..", "crates", "arrivals_main")
    with open(os.path.join(top, "stdin"), "wb") as f:
        for c, _ in table:
            f.write(len(c).to_bytes(2, "big") + c)
    with open(os.path.join(top, "stdout"), "w") as f:
        for _, a in table:
            f.write(a + "\n")


main()
