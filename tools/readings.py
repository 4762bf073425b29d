#!/usr/bin/env python3
"""Writes crates/readings_main/stdin and crates/readings_main/stdout: calls on a store, and what each must answer and write.

    tools/readings.py HISTORIES          write both files
    tools/readings.py --show HISTORIES   print each call, the requests as text, and its results

HISTORIES has histories worked out by an implementation that shares no code with this repository, one call a line (START_STORE schema run refusal;
TRANSACT request fresh records_len answer_len refusal answer records; MARK mark_len refusal mark). Calls and results are taken from it, of each
history those at its front: as many as show something that few calls before them do, until the room is used. Before them come document 01's readings
that are run, and calls that no history has (an area in no good order or of another length, the last record numbers, a division by zero), whose
results are document 01's and written here by hand.
"""
import collections
import json
import os
import re
import sys

MOST = 295000  # bytes of stdin
TIMES = 4  # calls that show the same
OPERATIONS = ("insert", "select", "update", "mutate", "delete", "comment", "abort")
FUNCTIONS = ("<", "<=", "==", "!=", ">=", ">", "includes", "excludes", "+=", "-=", "*=", "/=", "%=", "insert", "delete")
BATH = b'{"name":"bath","version":"1.0.0","tables":{"Probe":{"columns":{"name":{"type":"string"}},"isRoot":true}}}'
NUMBER = b'{"name":"d","version":"1.0.0","tables":{"T":{"columns":{"v":{"type":"integer"}}}}}'
FRESH = b"".join(i.to_bytes(16, "big") for i in range(1, 17))


def shown(b):
    """Bytes as the program reads and writes them."""
    return b.hex() or "-"


def written(b):
    """A buffer that begins with these bytes and is zero from there on."""
    return shown(b.rstrip(b"\0"))


def note(text):
    return "# " + text, "# " + text


def start(schema, run, refusal):
    return "start %s %d" % (shown(schema), run), "start %d" % refusal


def transact(request, refusal, answer=b"", records=b"", fresh=FRESH, records_len=26249, answer_len=4000):
    return "transact %s %s %d %d" % (shown(request), shown(fresh), records_len, answer_len), "transact %d %s %s" % (refusal, answer.decode() or "-", written(records))


def mark(refusal, value=b"", length=9):
    return "mark %d" % length, "mark %d %s" % (refusal, written(value))


def put(at, b):
    return "put %d %s" % (at, shown(b)), "put %d" % len(b)


def lacking(call):
    return "lacking " + call[0], call[1]


# ── document 01's readings, by hand ──
def four(n):
    return n.to_bytes(4, "big")


def uuid(i):
    return b'{"uuid":["uuid","00000000-0000-0000-0000-%012x"]}' % i


def ids(first):
    return b"".join(i.to_bytes(16, "big") for i in range(first, first + 16))


def insert(name):
    return b'["bath",{"op":"insert","table":"Probe","row":{"name":"%s"}}]' % name


def inserted(number, row, name):
    """The records of a new Probe: born, its name, end."""
    head = b"\0" + row.to_bytes(16, "big")
    return (b"\1" + four(1) + four(number) + head + b"\3" + four(1) + four(number + 1) + head + b"\0\1" + (bytes([len(name)]) + name).ljust(100, b"\0")
            + b"\4" + four(1) + four(number + 2))


def comment(value, more=b""):
    return b'["bath",{"op":"comment","comment":' + value + more + b"}]"


def arrays(n):
    return b"[" * n + b"]" * n


def objects(n):
    return b'{"a":' * (n - 1) + b"{}" + b"}" * (n - 1)


def nesting():
    fails = b'[{"error":"syntax error"}]'
    last = b',"comment":"x"'  # of a name given twice the last counts
    named = b'{"name":%s,' + BATH[1:]
    yield note("Nesting 12 is read")
    yield start(BATH, 1, 0)
    yield transact(comment(arrays(10), last), 0, b"[{}]")
    yield transact(comment(objects(10), last), 0, b"[{}]")
    yield transact(comment(arrays(10)), 0, fails)
    yield transact(comment(objects(10)), 0, fails)
    yield start(named % arrays(11), 1, 0)
    yield transact(b'["bath"]', 0, b"[]")
    yield note("Nesting 13 gives 4, a schema's 3")
    yield transact(comment(arrays(11), last), 4)
    yield transact(comment(objects(11), last), 4)
    yield transact(comment(arrays(11)), 4)
    yield transact(comment(arrays(5) + b"]"), 4)
    yield transact(arrays(13), 4)
    yield start(named % arrays(12), 1, 3)


def strings():
    yield note("A 24-byte string is held")
    yield start(BATH, 1, 0)
    plain, wide = b"abcdefghijklmnopqrstuvwx", "éééééééééééé".encode()
    yield transact(insert(plain), 0, b"[" + uuid(1) + b"]", inserted(1, 1, plain))
    yield transact(insert(wide), 0, b"[" + uuid(0x11) + b"]", inserted(4, 0x11, wide), ids(0x11))
    row = b'{"_uuid":["uuid","00000000-0000-0000-0000-0000000000%02x"],"name":"%s"}'
    rows = b'[{"rows":[' + row % (1, plain) + b"," + row % (0x11, wide) + b"]}]"
    select = b'["bath",{"op":"select","table":"Probe","where":[]}]'
    yield transact(select, 0, rows, fresh=ids(0x21))
    yield note("A string of 25 bytes is \"resources exhausted\"")
    fails = b'[{"error":"resources exhausted"}]'
    yield transact(insert(plain + b"y"), 0, fails, fresh=ids(0x21))
    yield transact(insert(wide + b"y"), 0, fails, fresh=ids(0x21))
    yield transact(insert(wide[2:] + "€".encode()), 0, fails, fresh=ids(0x21))
    yield transact(insert(wide[2:] + b"yz"), 0, b"[" + uuid(0x21) + b"]", inserted(7, 0x21, wide[2:] + b"yz"), ids(0x21))
    yield mark(0, b"\5" + four(1) + four(9))


def areas():
    yield note("An area that is in no good order gives 1, one that lacks a byte 2")
    yield start(BATH, 1, 0)
    empty = transact(b'["bath"]', 0, b"[]")
    yield empty
    yield put(1399, b"\1")
    yield transact(b'["bath"]', 1)
    yield transact(b"", 1)
    yield transact(b'["bath"]', 2, records_len=26248)
    yield mark(1)
    yield mark(2, length=8)
    yield lacking(transact(b'["bath"]', 2))
    yield lacking(mark(2))
    yield lacking(start(BATH, 1, 2))
    yield put(1399, b"\0")
    yield empty
    yield lacking(transact(b'["bath"]', 2))
    yield lacking(start(b"{}", 1, 2))
    yield mark(0, b"\5" + four(1) + four(0))


def numbers():
    yield note("Records that would pass the last number give 10, after 7")
    yield start(BATH, 1, 0)
    yield put(4, four(0xFFFFFFFD))
    yield transact(insert(b"pH-1"), 10)
    yield transact(insert(b"pH-1")[:-1] + b"," + insert(b"pH-2")[8:], 7, answer_len=100)
    yield transact(insert(b"pH-1")[:-1] + b"," + insert(b"pH-2")[8:], 10)
    yield transact(insert(b"pH-1")[:-1] + b',{"op":"abort"}]', 0, b"[" + uuid(1) + b',{"error":"aborted"}]')
    yield put(4, four(0xFFFFFFFC))
    yield transact(insert(b"pH-1"), 0, b"[" + uuid(1) + b"]", inserted(0xFFFFFFFD, 1, b"pH-1"))
    yield mark(0, b"\5" + four(1) + four(0xFFFFFFFF))
    yield transact(b'["bath",{"op":"delete","table":"Probe","where":[]}]', 10, fresh=ids(0x11))
    yield transact(b'["bath"]', 0, b"[]", fresh=ids(0x11))


def division():
    yield note("7 % 0: \"domain error\"")
    yield start(NUMBER, 1, 0)
    seven = b"\3" + four(1) + four(2) + b"\0" + FRESH[:16] + b"\0\1" + (7).to_bytes(8, "big") + bytes(92)
    records = b"\1" + four(1) + four(1) + b"\0" + FRESH[:16] + seven + b"\4" + four(1) + four(3)
    yield transact(b'["d",{"op":"insert","table":"T","row":{"v":7}}]', 0, b"[" + uuid(1) + b"]", records)
    yield transact(b'["d",{"op":"mutate","table":"T","where":[],"mutations":[["v","%=",0]]}]', 0, b'[{"error":"domain error"}]', fresh=ids(0x11))


# ── the histories ──
def raw(field):
    return b"" if field == "-" else bytes.fromhex(field)


def of_history(f):
    if f[0] == "START_STORE":
        return start(raw(f[1]), int(f[2]), int(f[3]))
    if f[0] == "TRANSACT":
        return transact(raw(f[1]), int(f[5]), raw(f[6]), raw(f[7]), raw(f[2]), int(f[3]), int(f[4]))
    return mark(int(f[2]), raw(f[3]), int(f[1]))


def operations(request):
    try:
        return [o for o in json.loads(request.decode())[1:] if isinstance(o, dict)]
    except (ValueError, UnicodeDecodeError, TypeError, KeyError, IndexError):
        return []


def parts(o):
    """The functions and the mutators of an operation."""
    for m in ("where", "mutations"):
        for t in o.get(m) if isinstance(o.get(m), list) else []:
            if isinstance(t, list) and len(t) == 3 and t[1] in FUNCTIONS:
                yield m, t[1]


def shows(f):
    """What a call shows: its refusal; what each operation comes to, and by which functions and mutators; the error of a commit; its records' kinds."""
    if f[0] != "TRANSACT":
        return {(f[0], f[3] if f[0] == "START_STORE" else f[2])}
    found = {("verdict", f[5])}
    if f[5] != "0":
        return found | {("lengths", f[5], f[3] == "26248", f[4] == "63", len(f[2]))}
    answers = json.loads(raw(f[6]).decode())
    ops = operations(raw(f[1]))
    for o, a in zip(ops, answers):
        if a is None:
            continue
        told = a.get("error", "done")
        found.add(("verdict", told))
        found.add((o["op"] if o.get("op") in OPERATIONS else "other", told))
        found.update((told, *p) for p in parts(o))
        if "rows" in a:
            found.add(("rows", min(len(a["rows"]), 4)))
        if "count" in a:
            found.add((o["op"], "count", min(a["count"], 3)))
    if len(answers) > len(ops):
        found.add(("verdict", "commit", answers[-1]["error"]))
    at, kinds, records = 0, [], raw(f[7])
    while at < len(records):
        kinds.append(records[at])
        at += {1: 26, 2: 26, 3: 128, 4: 9}[records[at]]
    return found | {("records", *pair) for pair in zip(kinds, kinds[1:])}


def histories(path):
    """The calls on each store, those of the mirror left out."""
    found = []
    for l in open(path):
        f = l.split()
        if f[0] == "START_STORE":
            found.append([f])
        elif f[0] in ("TRANSACT", "MARK"):
            found[-1].append(f)
    return found


def size(calls):
    return sum(len(c.encode()) + 1 for c, _ in calls)


def chosen(every, room):
    """How many calls to take of each history: always those next that show the most that is new for their length, until the room is used. Refusals and
    errors come first."""
    taken, seen = [0] * len(every), collections.Counter()
    for first in (True, False):
        told = [[({x for x in shows(f) if x[0] == "verdict" or not first}, size([of_history(f)])) for f in h] for h in every]
        while True:
            best, found = 0, None
            for i, calls in enumerate(told):
                gain, price, new = 0, 0 if taken[i] else 20, collections.Counter()
                for k in range(taken[i], len(calls)):
                    gain += sum(seen[x] + new[x] < TIMES for x in calls[k][0])
                    new.update(calls[k][0])
                    price += calls[k][1]
                    if price <= room and best < gain / price:
                        best, found = gain / price, (i, k + 1, price)
            if found is None:
                break
            i, k, price = found
            seen.update(x for f in every[i][taken[i]:k] for x in shows(f))
            taken[i] = k
            room -= price
    return taken


def main():
    table = list(nesting()) + list(strings()) + list(areas()) + list(numbers()) + list(division())
    every = histories(sys.argv[-1])
    for i, k in enumerate(chosen(every, MOST - size(table))):
        if k:
            table.append(note("History %d" % (i + 1)))
            table += map(of_history, every[i][:k])
    if "--show" in sys.argv:
        for c, a in table:
            word, _, more = c.partition(" ")
            text = raw(more.split()[0]).decode("utf-8", "backslashreplace") if re.match("start|transact", word) else more
            print(word, text, "\n   ", a)
        return
    top = os.path.join(os.path.dirname(os.path.abspath(__file__)), "..", "crates", "readings_main")
    for name, k in (("stdin", 0), ("stdout", 1)):
        with open(os.path.join(top, name), "w") as out:
            out.writelines(pair[k] + "\n" for pair in table)


main()
