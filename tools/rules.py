#!/usr/bin/env python3
"""docs/RULES.md in Python, rule by rule. It shares no code with the crates; the tables of some programs come from it.

    tools/rules.py check [HISTORIES]   run histories (tests/host/histories.txt.gz, or another file, packed or not) and compare every result
    tools/rules.py replay_main         write crates/replay_main/stdout from crates/replay_main/data and args
    tools/rules.py record_main         write crates/record_main/stdout

A store or a mirror is an object here and not an area; `store_bytes` and `mirror_bytes` make its area, `store_of` and `mirror_of` judge one. The numbers in
comments are the rules'.
"""
import gzip
import json
import os
import re
import sys

TOP = os.path.join(os.path.dirname(os.path.abspath(__file__)), "..")
BASES = ["integer", "boolean", "string", "uuid"]
LEAST, GREATEST, LAST = -(2**63), 2**63 - 1, 2**32 - 1
ROW, ENTRY, ENTRIES = 25 * 25, 48, 1 + 4 + 4 * 6
CATALOG = 8
COUNT = CATALOG + ENTRY * ENTRIES
ROWS = COUNT + 1
STORE = ROWS + 32 * ROW
MIRROR = STORE + 6


class Refused(Exception):
    """A schema or a request that breaks a rule."""


class Failed(Exception):
    """An operation or a commit that fails: its error."""


def need(good):
    if not good:
        raise Refused


# ── reading a text ──
class Number(str):
    """A number as it is written."""


class Object(list):
    """An object's members in the text's order, names given twice too."""

    def last(self):
        """By name the value that counts, at the last place of its name (T26, S10)."""
        found = {}
        for name, value in self:
            found.pop(name, None)
            found[name] = value
        return found


def refuse(_):
    raise Refused


def good_strings(v):
    """That no string has U+0000 or half of a surrogate pair, which json lets through (T18 to T20)."""
    if isinstance(v, Number):
        return
    if isinstance(v, str):
        need(not re.search("[\0\ud800-\udfff]", v))
    elif isinstance(v, Object):
        for name, value in v:
            good_strings(name)
            good_strings(value)
    elif isinstance(v, list):
        for x in v:
            good_strings(x)


def levels(v):
    if isinstance(v, Object):
        return 1 + max([levels(x) for _, x in v], default=0)
    return 1 + max(map(levels, v), default=0) if isinstance(v, list) else 0


def read(text, most):
    need(len(text) <= most)
    try:
        v = json.loads(text.decode("utf-8"), parse_int=Number, parse_float=Number, parse_constant=refuse, object_pairs_hook=Object)
    except (ValueError, RecursionError):
        raise Refused from None
    good_strings(v)
    need(levels(v) <= 12)
    return v


def is_string(v):
    return isinstance(v, str) and not isinstance(v, Number)


def is_array(v):
    return isinstance(v, list) and not isinstance(v, Object)


def is_integer(v):
    if not isinstance(v, Number) or not re.fullmatch("-?[0-9]+", v):
        return False
    return len(v) <= 20 and LEAST <= int(v) <= GREATEST


def is_id(v):
    return is_string(v) and re.fullmatch("[a-zA-Z][a-zA-Z0-9_]*", v) is not None and len(v) <= 24


# ── schemas ──
class Column:
    """A column: name, base, how it refers (0 not, 1 strong, 2 weak) and to which table, min, max, low, high, mutable."""

    scalar = property(lambda c: c.min == c.max == 1)


class Table:
    """A table: name, columns, root (as said), max_rows (or None), indexes (numbers of columns)."""


class Schema:
    def root(self, t):
        return self.tables[t].root or not any(x.root for x in self.tables)


def members(v, required, optional):
    """An object's members by name; none but these, and all that are required."""
    need(isinstance(v, Object))
    found = v.last()
    need(set(found) <= set(required) | set(optional) and set(required) <= set(found))
    return found


def integer(v, low=LEAST, high=GREATEST):
    need(is_integer(v) and low <= int(v) <= high)
    return int(v)


def truth(v):
    need(isinstance(v, bool))
    return v


def parts(v, most):
    """The tables of a schema or the columns of a table, by name, those that count."""
    need(isinstance(v, Object) and all(is_id(name) for name, _ in v))
    found = v.last()
    need(len(found) <= most)
    return found


def column(name, v, tables):
    c = Column()
    c.name = name
    m = members(v, ["type"], ["ephemeral", "mutable"])
    c.ephemeral = truth(m.get("ephemeral", False))
    c.mutable = truth(m.get("mutable", True))
    t = members(m["type"], ["key"], ["min", "max"]) if isinstance(m["type"], Object) else {"key": m["type"]}
    c.min = integer(t["min"], 0, 1) if "min" in t else 1
    c.max = 1
    if "max" in t:
        c.max = 4 if is_string(t["max"]) and t["max"] == "unlimited" else integer(t["max"], 1, 4)
    need(c.min <= c.max)
    k = t["key"]
    k = members(k, ["type"], ["minInteger", "maxInteger", "minLength", "maxLength", "refTable", "refType"]) if isinstance(k, Object) else {"type": k}
    need(is_string(k["type"]) and k["type"] in BASES)
    c.base = k["type"]
    limits = {"integer": ("minInteger", "maxInteger"), "string": ("minLength", "maxLength")}
    for of, pair in limits.items():
        need(of == c.base or not set(pair) & set(k))
    low, high = limits.get(c.base, (None, None))
    c.low = integer(k[low]) if low in k else LEAST
    c.high = integer(k[high]) if high in k else GREATEST
    need(c.low <= c.high)
    c.how, c.table = 0, 0
    if "refTable" in k:
        need(c.base == "uuid" and is_string(k["refTable"]) and k["refTable"] in tables)
        need(is_string(k.get("refType", "strong")) and k.get("refType", "strong") in ("strong", "weak"))
        c.how, c.table = (2 if k.get("refType") == "weak" else 1), tables.index(k["refTable"])
    need("refTable" in k or "refType" not in k)
    return c


def table(name, v, tables):
    t = Table()
    t.name = name
    m = members(v, ["columns"], ["maxRows", "isRoot", "indexes"])
    t.columns = [column(w, c, tables) for w, c in parts(m["columns"], 6).items()]
    t.max_rows = integer(m["maxRows"], 1) if "maxRows" in m else None
    t.root = truth(m.get("isRoot", False))
    names = [c.name for c in t.columns]
    t.indexes = []
    indexes = m.get("indexes", [])
    need(is_array(indexes) and len(indexes) <= 2)
    for index in indexes:
        need(is_array(index) and 1 <= len(index) <= 3)
        need(all(is_string(w) and w in names and not t.columns[names.index(w)].ephemeral for w in index))
        t.indexes.append([names.index(w) for w in index])
    return t


def read_schema(text):
    m = members(read(text, 4096), ["name", "version", "tables"], ["cksum"])
    need(is_id(m["name"]) and is_string(m["version"]) and re.fullmatch(r"[0-9]+\.[0-9]+\.[0-9]+", m["version"]) and is_string(m.get("cksum", "")))
    s = Schema()
    s.text, s.name = text, m["name"].encode()
    tables = parts(m["tables"], 4)
    s.tables = [table(w, t, list(tables)) for w, t in tables.items()]
    return s


def schema_given(schema):
    """A schema, or what its text is read as."""
    return schema if isinstance(schema, Schema) else read_schema(schema)


# ── values: a tuple of elements in their order; an integer, a boolean, or the bytes of a string or a uuid ──
def atom(base, x):
    if base == "integer":
        b = x.to_bytes(8, "big", signed=True)
    elif base == "boolean":
        b = bytes([x])
    else:
        b = bytes([len(x)]) + x if base == "string" else x
    return b.ljust(25, b"\0")


def value_bytes(c, v):
    return bytes([len(v)]) + b"".join(atom(c.base, x) for x in v).ljust(100, b"\0")


def length(t):
    return len(t.decode())


def in_limits(c, x):
    if c.base == "integer":
        return c.low <= x <= c.high
    return c.base != "string" or c.low <= length(x) <= c.high


def default(c):
    return () if c.min == 0 else ({"integer": 0, "boolean": False, "string": b"", "uuid": bytes(16)}[c.base],)


def value_of(c, b):
    """The value that 101 bytes are, or None where they are not canonical for the column (V9, V10)."""
    n, found = b[0], []
    if n > 4 or (c.scalar and n != 1):
        return None
    for k in range(n):
        a = b[1 + 25 * k : 26 + 25 * k]
        if c.base == "integer":
            found.append(int.from_bytes(a[:8], "big", signed=True))
        elif c.base == "boolean":
            found.append(a[0] == 1)
        elif c.base == "uuid":
            found.append(a[:16])
        else:
            if a[0] > 24 or 0 in a[1 : 1 + a[0]]:
                return None
            try:
                a[1 : 1 + a[0]].decode("utf-8")
            except UnicodeDecodeError:
                return None
            found.append(a[1 : 1 + a[0]])
    if any(not x < y for x, y in zip(found, found[1:])) or value_bytes(c, found) != b:
        return None
    return tuple(found)


# ── values as written ──
def mistyped():
    raise Failed("syntax error")


def element(c, v, names):
    if c.base == "integer" and is_integer(v):
        return int(v)
    if c.base == "boolean" and isinstance(v, bool):
        return v
    if c.base == "string" and is_string(v):
        return v.encode()
    if c.base == "uuid" and is_array(v) and len(v) == 2 and is_string(v[0]) and is_string(v[1]):
        if v[0] == "uuid" and re.fullmatch("[0-9a-fA-F]{8}(-[0-9a-fA-F]{4}){3}-[0-9a-fA-F]{12}", v[1]):
            return bytes.fromhex(v[1].replace("-", ""))
        if v[0] == "named-uuid" and v[1] in names:
            return names[v[1]]
    return mistyped()


def elements(c, v, names):
    """The elements in the text's order (W1)."""
    if is_array(v) and len(v) == 2 and is_string(v[0]) and v[0] == "set" and is_array(v[1]):
        return [element(c, x, names) for x in v[1]]
    return [element(c, v, names)]


def distinct(l):
    return len(set(l)) == len(l)


# ── what is wrong with an operation as written: all of it is gathered, and the first in the order of E2 told ──
ORDER = ["syntax error", "resources exhausted", "duplicate uuid-name", "constraint violation"]


class Faults:
    def __init__(self):
        self.found = set()

    def unless(self, good, error):
        if not good:
            self.found.add(error)

    def values(self, c, v, names):
        """The elements of a value, None where it is mistyped."""
        try:
            return elements(c, v, names)
        except Failed as f:
            self.found.add(str(f))
            return None

    def tell(self):
        for error in ORDER:
            if error in self.found:
                raise Failed(error)

    def kept(self, c, l, low):
        """W12, W13, W15."""
        self.unless(len(l) <= 4 and not (c.base == "string" and any(len(x) > 24 for x in l)), "resources exhausted")
        self.unless(distinct(l) and all(in_limits(c, x) for x in l) and low <= len(l) <= c.max, "constraint violation")


ID = Column()
ID.name, ID.base, ID.min, ID.max, ID.mutable, ID.how = "_uuid", "uuid", 1, 1, False, 0
FUNCTIONS = {
    "<": lambda xs, l: xs[0] < l[0],
    "<=": lambda xs, l: xs[0] <= l[0],
    "==": lambda xs, l: xs == tuple(sorted(l)),
    "!=": lambda xs, l: xs != tuple(sorted(l)),
    ">=": lambda xs, l: xs[0] >= l[0],
    ">": lambda xs, l: xs[0] > l[0],
    "includes": lambda xs, l: all(x in xs for x in l),
    "excludes": lambda xs, l: not any(x in xs for x in l),
}
ARITHMETIC = ("+=", "-=", "*=", "/=", "%=")


class Row:
    def __init__(self, table, key, values):
        self.table, self.key, self.values = table, key, values

    def copy(self):
        return Row(self.table, self.key, list(self.values))

    place = property(lambda r: (r.table, r.key))


class Operation:
    """One operation, on working rows."""

    def __init__(self, schema, m, names, earlier, fresh, rows):
        self.schema, self.m, self.names, self.earlier, self.fresh, self.rows = schema, m, names, earlier, fresh, rows
        self.faults = Faults()

    def run(self):
        """The result's text; the rows are changed."""
        op = self.m.get("op")
        if not is_string(op) or op not in MEMBERS:
            mistyped()
        required, optional = MEMBERS[op]
        if not set(required) <= set(self.m) or not set(self.m) <= set(required) | set(optional):
            mistyped()
        if "table" in required:
            names = [t.name for t in self.schema.tables]
            if not is_string(self.m["table"]) or self.m["table"] not in names:
                mistyped()
            self.t = names.index(self.m["table"])
            self.columns = {c.name: (i, c) for i, c in enumerate(self.schema.tables[self.t].columns)}
        return getattr(self, op)()

    def triples(self, member):
        """The arrays of a name, a word and a value (K1, U1)."""
        if not is_array(self.m[member]):
            mistyped()
        for x in self.m[member]:
            if not is_array(x) or len(x) != 3 or not is_string(x[0]) or not is_string(x[1]):
                mistyped()
            yield x

    def where(self):
        tests = []
        for name, word, v in self.triples("where"):
            i, c = (None, ID) if name == "_uuid" else self.columns.get(name, (None, None))
            if c is None or word not in FUNCTIONS or (word in ("<", "<=", ">=", ">") and not (c.base == "integer" and c.scalar)):
                mistyped()
            l = self.faults.values(c, v, self.names)
            if l is None:
                continue
            if c.scalar:
                good = len(l) == 1
            else:
                good = word == "excludes" or (len(l) <= c.max and (word == "includes" or c.min <= len(l)))
            self.faults.unless(good and distinct(l), "constraint violation")
            tests.append((i, FUNCTIONS[word], l))
        self.tests = tests

    def matching(self):
        return [r for r in self.rows if r.table == self.t and all(f((r.key,) if i is None else r.values[i], l) for i, f, l in self.tests)]

    def row(self, named, absent):
        """The values of "row" by column, judged (O17)."""
        if not isinstance(self.m["row"], Object):
            mistyped()
        given = self.m["row"].last()
        if not set(given) <= set(self.columns):
            mistyped()
        found = {}
        for name, (i, c) in self.columns.items():
            if name not in given:
                absent(c)
                continue
            named(c)
            l = self.faults.values(c, given[name], self.names)
            if l is not None:
                self.faults.kept(c, l, c.min)
                found[i] = tuple(sorted(l))
        return found

    def insert(self):
        given = self.row(lambda c: None, lambda c: self.faults.unless(all(in_limits(c, x) for x in default(c)), "constraint violation"))
        if "uuid-name" in self.m:
            w = self.m["uuid-name"]
            if not is_id(w):
                mistyped()
            self.faults.unless(w not in self.earlier, "duplicate uuid-name")
        self.faults.unless(len(self.rows) < 32, "resources exhausted")
        self.faults.tell()
        values = [given.get(i, default(c)) for i, c in self.columns.values()]
        self.rows.append(Row(self.t, self.fresh, values))
        self.rows.sort(key=lambda r: r.place)
        return '{"uuid":%s}' % uuid_text(self.fresh)

    def select(self):
        self.where()
        shown = None
        if "columns" in self.m:
            shown = self.m["columns"]
            if not is_array(shown) or not all(is_string(w) and (w == "_uuid" or w in self.columns) for w in shown) or not distinct(shown):
                mistyped()
        self.faults.tell()
        objects = []
        for r in self.matching():
            o = row_text(self.columns.values(), r, shown)
            if o not in objects:
                objects.append(o)
        return '{"rows":[%s]}' % ",".join(objects)

    def immutable(self, c):
        self.faults.unless(c.mutable, "constraint violation")

    def update(self):
        self.where()
        given = self.row(self.immutable, lambda c: None)
        self.faults.tell()
        found = self.matching()
        for r in found:
            for i, v in given.items():
                r.values[i] = v
        return '{"count":%d}' % len(found)

    def delete(self):
        self.where()
        self.faults.tell()
        found = self.matching()
        self.rows[:] = [r for r in self.rows if r not in found]
        return '{"count":%d}' % len(found)

    def mutate(self):
        self.where()
        mutations = []
        for name, word, v in self.triples("mutations"):
            i, c = self.columns.get(name, (None, None))
            if c is None or not (c.base == "integer" if word in ARITHMETIC else word in ("insert", "delete") and not c.scalar):
                mistyped()
            self.immutable(c)
            l = self.faults.values(c, v, self.names)
            if l is None:
                continue
            if word in ARITHMETIC:
                self.faults.unless(len(l) == 1, "constraint violation")
            elif word == "insert":
                self.faults.kept(c, l, 0)
            else:
                self.faults.unless(distinct(l) and all(in_limits(c, x) for x in l), "constraint violation")
            mutations.append((i, c, word, l))
        self.faults.tell()
        found = self.matching()
        for r in found:
            for i, c, word, l in mutations:
                r.values[i] = step(c, word, l, r.values[i])
        return '{"count":%d}' % len(found)

    def comment(self):
        if not is_string(self.m["comment"]):
            mistyped()
        return "{}"

    def abort(self):
        raise Failed("aborted")


MEMBERS = {
    "insert": (["op", "table", "row"], ["uuid-name"]),
    "select": (["op", "table", "where"], ["columns"]),
    "update": (["op", "table", "where", "row"], []),
    "mutate": (["op", "table", "where", "mutations"], []),
    "delete": (["op", "table", "where"], []),
    "comment": (["op", "comment"], []),
    "abort": (["op"], []),
}


def exact(word, a, b):
    if word in ("/=", "%="):
        q = abs(a) // abs(b) * (1 if (a < 0) == (b < 0) else -1)
        return q if word == "/=" else a - q * b
    return {"+=": a + b, "-=": a - b, "*=": a * b}[word]


def step(c, word, l, xs):
    """One mutation on one row's column (U6 to U13)."""
    if word == "insert":
        found = set(xs) | set(l)
        if len(found) > 4:
            raise Failed("resources exhausted")
        good = len(found) <= c.max
    elif word == "delete":
        found = set(xs) - set(l)
        good = len(found) >= c.min
    else:
        if word in ("/=", "%=") and l[0] == 0 and xs:
            raise Failed("domain error")
        found = [exact(word, x, l[0]) for x in xs]
        if any(not LEAST <= x <= GREATEST for x in found):
            raise Failed("range error")
        good = distinct(found) and all(in_limits(c, x) for x in found)
    if not good:
        raise Failed("constraint violation")
    return tuple(sorted(found))


# ── the text of answers ──
def quoted(b):
    return '"%s"' % re.sub('["\\\\\0-\x1f]', lambda m: "\\" + m.group() if m.group() in '"\\' else "\\u%04x" % ord(m.group()), b.decode())


def uuid_text(b):
    h = b.hex()
    return '["uuid","%s"]' % "-".join([h[:8], h[8:12], h[12:16], h[16:20], h[20:]])


def element_text(base, x):
    if base == "integer":
        return "%d" % x
    if base == "boolean":
        return "true" if x else "false"
    return quoted(x) if base == "string" else uuid_text(x)


def value_text(c, v):
    l = [element_text(c.base, x) for x in v]
    return l[0] if len(l) == 1 else '["set",[%s]]' % ",".join(l)


def row_text(columns, r, shown):
    found = ['"_uuid":' + uuid_text(r.key)] if shown is None or "_uuid" in shown else []
    found += ['"%s":%s' % (c.name, value_text(c, r.values[i])) for i, c in columns if shown is None or c.name in shown]
    return "{%s}" % ",".join(found)


def error_text(error):
    return '{"error":"%s"}' % error


# ── the commit ──
def references(schema, r, how):
    """The places of the rows that a row refers to."""
    return {(c.table, x) for c, v in zip(schema.tables[r.table].columns, r.values) if c.how == how for x in v}


def all_found(schema, rows, how):
    places = {r.place for r in rows}
    return all(references(schema, r, how) <= places for r in rows)


def loose(schema, rows, r):
    return not schema.root(r.table) and not any(q is not r and r.place in references(schema, q, 1) for q in rows)


def rules_hold(schema, rows):
    """C7."""
    if any(len(v) < c.min for r in rows for c, v in zip(schema.tables[r.table].columns, r.values)):
        return False
    for t, x in enumerate(schema.tables):
        own = [r for r in rows if r.table == t]
        if x.max_rows is not None and len(own) > x.max_rows:
            return False
        if any(not distinct([tuple(r.values[i] for i in index) for r in own]) for index in x.indexes):
            return False
    return True


def commit(schema, rows):
    if not all_found(schema, rows, 1):
        raise Failed("referential integrity violation")
    while True:
        found = [r for r in rows if loose(schema, rows, r)]
        if not found:
            break
        rows.remove(found[0])
    places = {r.place for r in rows}
    for r in rows:
        for i, c in enumerate(schema.tables[r.table].columns):
            if c.how == 2:
                r.values[i] = tuple(x for x in r.values[i] if (c.table, x) in places)
    if not rules_hold(schema, rows):
        raise Failed("constraint violation")


# ── records ──
def four(n):
    return n.to_bytes(4, "big")


def changes(schema, before, after):
    """What follows run and number in each record, with its kind."""
    found = []
    old = {r.place: r for r in before}
    new = {r.place for r in after}
    head = lambda r: bytes([r.table]) + r.key
    found += [(2, head(r)) for r in before if r.place not in new]
    for r in after:
        was = old.get(r.place)
        if was is None:
            found.append((1, head(r)))
        for i, c in enumerate(schema.tables[r.table].columns):
            if was is None or was.values[i] != r.values[i]:
                found.append((3, head(r) + bytes([i]) + value_bytes(c, r.values[i])))
    return found + [(4, b"")] if found else []


# ── the store ──
class Store:
    def __init__(self, schema, run):
        self.schema, self.run, self.number, self.rows = schema_given(schema), run, 0, []

    def transact(self, text, fresh, records_len, answer_len):
        """Refusal, answer and records."""
        if len(fresh) != 256 or records_len < 26249 or answer_len < 64:
            return 2, b"", b""
        try:
            request = read(text, 8192)
            need(is_array(request) and request and is_string(request[0]) and len(request) <= 17)
            need(all(isinstance(o, Object) for o in request[1:]))
        except Refused:
            return 4, b"", b""
        if request[0].encode() != self.schema.name:
            return 5, b"", b""
        ids = [fresh[16 * i : 16 * i + 16] for i in range(16)]
        if not distinct(ids) or bytes(16) in ids or {r.key for r in self.rows} & set(ids):
            return 6, b"", b""
        operations = [o.last() for o in request[1:]]
        names = {}
        for o, i in zip(operations, ids):
            if self.insert_name(o) is not None:
                names.setdefault(o["uuid-name"], i)
        rows = [r.copy() for r in self.rows]
        results, commits = [], True
        for k, o in enumerate(operations):
            earlier = {self.insert_name(x) for x in operations[:k]}
            try:
                results.append(Operation(self.schema, o, names, earlier, ids[k], rows).run())
            except Failed as f:
                results += [error_text(f)] + ["null"] * (len(operations) - k - 1)
                commits = False
                break
        if commits:
            try:
                commit(self.schema, rows)
            except Failed as f:
                results.append(error_text(f))
                commits = False
        answer = ("[%s]" % ",".join(results)).encode()
        if len(answer) > answer_len:
            return 7, b"", b""
        found = changes(self.schema, self.rows, rows) if commits else []
        if self.number + len(found) > LAST:
            return 10, b"", b""
        written = b"".join(bytes([kind]) + four(self.run) + four(self.number + 1 + i) + body for i, (kind, body) in enumerate(found))
        if commits:
            self.rows, self.number = rows, self.number + len(found)
        return 0, answer, written

    @staticmethod
    def insert_name(o):
        """W6."""
        if is_string(o.get("op")) and o["op"] == "insert" and is_string(o.get("uuid-name")):
            return o["uuid-name"]
        return None

    def mark(self, mark_len):
        return (2, b"") if mark_len < 9 else (0, b"\5" + four(self.run) + four(self.number))


# ── the mirror ──
LENGTHS = {1: 26, 2: 26, 3: 128, 4: 9, 5: 9}


class Mirror:
    def __init__(self, schema, run):
        self.schema, self.run, self.n, self.rows = schema_given(schema), run, 0, []
        self.top, self.heard, self.whole = 0, False, True

    def hear(self, x):
        """The answer's number."""
        if not x or LENGTHS.get(x[0]) != len(x):
            return 8
        kind, run, number = x[0], int.from_bytes(x[1:5], "big"), int.from_bytes(x[5:9], "big")
        if kind == 5:
            if run != self.run:
                return 9
            self.heard, self.top = True, max(self.top, number)
            return 102
        t, key = (x[9], x[10:26]) if kind < 4 else (None, None)
        if number == 0 or (kind < 4 and (t >= len(self.schema.tables) or key == bytes(16))):
            return 8
        value = None
        if kind == 3:
            columns = self.schema.tables[t].columns
            if x[26] >= len(columns):
                return 8
            value = value_of(columns[x[26]], x[27:])
            if value is None:
                return 8
        row = self.find(t, key) if kind < 4 else None
        if number == self.n + 1:
            if kind == 1 and (len(self.rows) == 32 or any(r.key == key for r in self.rows)) or kind in (2, 3) and row is None:
                return 8
        if run != self.run:
            return 9
        if number <= self.n:
            return 100
        self.heard, self.top = True, max(self.top, number)
        if number > self.n + 1:
            return 101
        if kind == 1:
            self.rows.append(Row(t, key, [default(c) for c in self.schema.tables[t].columns]))
            self.rows.sort(key=lambda r: r.place)
        elif kind == 2:
            self.rows.remove(row)
        elif kind == 3:
            row.values[x[26]] = value
        self.n, self.whole = number, kind == 4
        return 103

    def find(self, t, key):
        return next((r for r in self.rows if r.place == (t, key)), None)

    def level(self):
        return self.heard and self.n == self.top and self.whole

    def column(self, t, key, c):
        r = self.find(t, key)
        if r is None or c >= len(r.values):
            return bytes(101)
        return value_bytes(self.schema.tables[t].columns[c], r.values[c])


# ── areas ──
def rows_bytes(schema, rows):
    found = bytes([len(rows)])
    for r in rows:
        columns = schema.tables[r.table].columns
        found += (bytes([r.table]) + r.key + bytes(len(v) for v in r.values)).ljust(25, b"\0")
        found += b"".join(value_bytes(c, v)[1:] for c, v in zip(columns, r.values)).ljust(600, b"\0")
    return found.ljust(20001, b"\0")


def name_bytes(name):
    return bytes([len(name)]) + name.ljust(24, b"\0")


def entry(b):
    return b.ljust(ENTRY, b"\0")


def column_entry(c):
    return entry(name_bytes(c.name.encode()) + bytes([BASES.index(c.base), c.how, c.table, c.min, c.max, c.mutable]) + c.low.to_bytes(8, "big", signed=True) + c.high.to_bytes(8, "big", signed=True))


def table_entry(t):
    indexes = b"".join(bytes([len(x)] + x).ljust(4, b"\0") for x in t.indexes)
    return entry(name_bytes(t.name.encode()) + bytes([len(t.columns), t.root, t.max_rows is not None]) + (t.max_rows or 0).to_bytes(8, "big") + bytes([len(t.indexes)]) + indexes)


def catalog_bytes(s):
    """A schema as an area keeps it (A1): the database, four tables, six columns of each; what is not in use is zero."""
    found = entry(name_bytes(s.name) + bytes([len(s.tables)])) + b"".join(table_entry(t) for t in s.tables).ljust(4 * ENTRY, b"\0")
    return found + b"".join(b"".join(column_entry(c) for c in t.columns).ljust(6 * ENTRY, b"\0") for t in s.tables).ljust(24 * ENTRY, b"\0")


def name_in(b):
    name = b[1 : 1 + b[0]].decode("ascii", "replace")
    need(is_id(name) and b[0] <= 24)
    return name


def column_in(b, tables):
    c = Column()
    c.name = name_in(b)
    need(b[25] < 4 and b[26] < 3)
    c.base, c.how, c.table, c.min, c.max, c.mutable = BASES[b[25]], b[26], b[27], b[28], b[29], b[30] == 1
    c.low, c.high = int.from_bytes(b[31:39], "big", signed=True), int.from_bytes(b[39:47], "big", signed=True)
    need(c.min <= 1 <= c.max <= 4 and c.min <= c.max and c.low <= c.high)
    need(c.base in ("integer", "string") or (c.low, c.high) == (LEAST, GREATEST))
    need(c.table == 0 if c.how == 0 else c.base == "uuid" and c.table < tables)
    return c


def table_in(b, cells, tables):
    t = Table()
    t.name = name_in(b)
    need(b[25] <= 6)
    t.columns = [column_in(cells[ENTRY * i : ENTRY * (i + 1)], tables) for i in range(b[25])]
    need(distinct([c.name for c in t.columns]))
    t.root, t.max_rows = b[26] == 1, int.from_bytes(b[28:36], "big") if b[27] == 1 else None
    need(t.max_rows is None or 1 <= t.max_rows <= GREATEST)
    need(b[36] <= 2)
    t.indexes = [list(b[at + 1 : at + 1 + b[at]]) for at in (37, 41)[: b[36]]]
    need(all(1 <= len(x) <= 3 and all(c < len(t.columns) for c in x) for x in t.indexes))
    return t


def schema_of(b):
    """The schema of a catalog's bytes; what breaks a rule on schemas is refused (A10)."""
    s = Schema()
    s.text, s.name = b, name_in(b).encode()
    need(b[25] <= 4)
    s.tables = [table_in(b[ENTRY * (1 + t) : ENTRY * (2 + t)], b[ENTRY * (5 + 6 * t) : ENTRY * (11 + 6 * t)], b[25]) for t in range(b[25])]
    need(distinct([t.name for t in s.tables]) and catalog_bytes(s) == b)
    return s


def store_bytes(s):
    return four(s.run) + four(s.number) + catalog_bytes(s.schema) + rows_bytes(s.schema, s.rows)


def mirror_bytes(m):
    return four(m.run) + four(m.n) + catalog_bytes(m.schema) + rows_bytes(m.schema, m.rows) + four(m.top) + bytes([m.heard, m.whole])


def rows_of(schema, a):
    """The rows of an area, None where they are not canonical."""
    found = []
    if a[COUNT] > 32:
        return None
    for i in range(a[COUNT]):
        b = a[ROWS + ROW * i : ROWS + ROW * (i + 1)]
        if b[0] >= len(schema.tables) or b[1:17] == bytes(16):
            return None
        values = [value_of(c, b[17 + k : 18 + k] + b[25 + 100 * k : 125 + 100 * k]) for k, c in enumerate(schema.tables[b[0]].columns)]
        if None in values:
            return None
        found.append(Row(b[0], b[1:17], values))
    if found != sorted(found, key=lambda r: r.place) or not distinct([r.key for r in found]):
        return None
    return found


def begun(kind, a):
    try:
        x = kind(schema_of(a[CATALOG:COUNT]), int.from_bytes(a[:4], "big"))
    except Refused:
        return None
    x.rows = rows_of(x.schema, a)
    return None if x.rows is None else x


def store_of(a):
    """The store of an area, None where it is not in good order (A9 to A14)."""
    s = begun(Store, a)
    if s is None:
        return None
    s.number = int.from_bytes(a[4:8], "big")
    if store_bytes(s) != a or not rules_hold(s.schema, s.rows) or not all_found(s.schema, s.rows, 1) or not all_found(s.schema, s.rows, 2):
        return None
    if any(loose(s.schema, s.rows, r) for r in s.rows):
        return None
    for r in s.rows:
        for c, v in zip(s.schema.tables[r.table].columns, r.values):
            if not c.min <= len(v) <= c.max or not all(in_limits(c, x) for x in v):
                return None
    return s


def mirror_of(a):
    """The mirror of an area, None where it is not in good order (A9 to A17)."""
    m = begun(Mirror, a)
    if m is None:
        return None
    m.n, m.top, m.heard, m.whole = int.from_bytes(a[4:8], "big"), int.from_bytes(a[STORE : STORE + 4], "big"), a[STORE + 4] == 1, a[STORE + 5] == 1
    if mirror_bytes(m) != a or m.n > m.top or (m.top and not m.heard) or (m.n == 0 and not m.whole):
        return None
    return m


# ── what is run ──
def raw(field):
    return b"" if field == "-" else bytes.fromhex(field)


ANSWERS = {"repeat": 100, "behind": 101, "heard": 102, "applied": 103}


def start(kind, f):
    try:
        return kind(raw(f[1]), int(f[2])), 0
    except Refused:
        return None, 3


def check(path):
    """Runs histories and compares; the areas are read back after each call."""
    passed = failed = 0
    store = mirror = None
    with (gzip.open if path.endswith(".gz") else open)(path, "rt") as lines:
        for at, line in enumerate(lines, 1):
            f = line.split()
            good = False
            if f[0] == "START_STORE":
                store, refusal = start(Store, f)
                good = refusal == int(f[3])
            elif f[0] == "START_MIRROR":
                mirror, refusal = start(Mirror, f)
                good = refusal == int(f[3])
            elif f[0] == "TRANSACT":
                got = store.transact(raw(f[1]), raw(f[2]), int(f[3]), int(f[4]))
                good = got == (int(f[5]), raw(f[6]), raw(f[7])) and store_of(store_bytes(store)) is not None
            elif f[0] == "MARK":
                good = store.mark(int(f[1])) == (int(f[2]), raw(f[3]))
            elif f[0] == "HEAR":
                got = mirror.hear(raw(f[1]))
                good = (got, mirror.n, mirror.top, mirror.level()) == (ANSWERS.get(f[2]) or int(f[2]), int(f[3]), int(f[4]), f[5] == "1")
                good = good and mirror_of(mirror_bytes(mirror)) is not None
            elif f[0] == "ROW":
                good = (mirror.find(int(f[1]), raw(f[2])) is not None) == (f[3] == "1")
            elif f[0] == "COLUMN":
                good = mirror.column(int(f[1]), raw(f[2]), int(f[3])) == bytes([int(f[4])]) + raw(f[5]).ljust(100, b"\0")
            passed, failed = passed + good, failed + (not good)
            if not good and failed <= 10:
                print("line %d: %s" % (at, line[:300].rstrip()))
    print("%d passed, %d failed" % (passed, failed))
    return failed == 0


def pieces(records):
    at = 0
    while at < len(records):
        yield records[at : at + LENGTHS[records[at]]]
        at += LENGTHS[records[at]]


WORDS = {
    4: "refused 4: the request is malformed or too large",
    5: "refused 5: the request is for another database",
    6: "refused 6: the fresh ids are not fresh",
    7: "refused 7: the answer is longer than its buffer",
    10: "refused 10: the record numbers are spent",
}


def replay_main():
    """What the program `replay_main` prints: fresh ids are counted from 1 on, 16 to a request; the display hears the first commit's records alone, both hear the mark."""
    top = os.path.join(TOP, "crates", "replay_main")
    args = open(os.path.join(top, "args")).read().split("\n")
    schema = open(os.path.join(top, "data", args[0]), "rb").read()
    run = int(args[1])
    store, whole, display = Store(schema, run), Mirror(schema, run), Mirror(schema, run)
    out = []
    for k, line in enumerate(open(os.path.join(top, "data", args[2]), "rb").read().split(b"\n")):
        if not line:
            continue
        fresh = b"".join((16 * k + i + 1).to_bytes(16, "big") for i in range(16))
        refusal, answer, records = store.transact(line, fresh, 26249, 65536)
        out.append("request " + line.decode(errors="surrogateescape"))
        first = display.n == 0
        out.append(WORDS[refusal] if refusal else "answer " + answer.decode())
        for x in pieces(records):
            out.append("record " + x.hex())
            whole.hear(x)
            if first:
                display.hear(x)
    mark = store.mark(9)[1]
    out.append("mark " + mark.hex())
    for name, m in (("a mirror that heard every record", whole), ("a display that lost all records after the first commit's", display)):
        m.hear(mark)
        out.append("%s: record %d, %s" % (name, m.n, "level" if m.level() else "not level"))
        for t, x in enumerate(store.schema.tables):
            out.append("table " + x.name)
            out += ["  " + row_text(list(enumerate(x.columns)), r, None) for r in m.rows if r.table == t]
    return "".join(l + "\n" for l in out)


def record_main():
    """X1's records: born, the column's head, its first atom, the other three, end."""
    store = Store(b'{"name":"bath","version":"1.0.0","tables":{"Probe":{"columns":{"name":{"type":"string"}},"isRoot":true}}}', 1)
    fresh = b"".join(i.to_bytes(16, "big") for i in range(1, 17))
    records = store.transact(b'["bath",{"op":"insert","table":"Probe","row":{"name":"pH-1"}}]', fresh, 26249, 64)[2]
    cuts = [0, 26, 54, 79, 154, 163]
    return "".join(records[a:b].hex() + "\n" for a, b in zip(cuts, cuts[1:]))


def main():
    word = sys.argv[1] if len(sys.argv) > 1 else ""
    if word == "check":
        sys.exit(0 if check(sys.argv[2] if len(sys.argv) > 2 else os.path.join(TOP, "tests/host/histories.txt.gz")) else 1)
    if word not in ("replay_main", "record_main"):
        sys.exit(__doc__)
    with open(os.path.join(TOP, "crates", word, "stdout"), "w", errors="surrogateescape") as out:
        out.write(globals()[word]())


if __name__ == "__main__":
    main()
