#!/usr/bin/env python3
"""Writes crates/texts_main/stdin and crates/texts_main/stdout: texts, and what reading each must give.

    tools/texts.py          write both files
    tools/texts.py --show   print the table

The answers are worked out by Python's own json and not by this repository's reader. What json takes too freely is refused by hand: NaN and
Infinity, \\u0000, and halves of surrogate pairs that stand alone. The place at which a text stops is the end of the longest prefix that some
completion makes well formed: many completions are tried, each judged by json. A level is counted outside strings.
"""
import itertools
import json
import os
import sys


def refuse(word):
    raise ValueError(word)


class Number(str):
    pass


def strings(v):
    if isinstance(v, Number):
        return
    if isinstance(v, str):
        yield v
    elif isinstance(v, Pairs):
        for k, x in v.pairs:
            yield k
            yield from strings(x)
    elif isinstance(v, list):
        for x in v:
            yield from strings(x)


class Pairs:
    def __init__(self, pairs):
        self.pairs = pairs


def parse(b):
    """The value, or None where the bytes are no well-formed text, levels aside."""
    try:
        v = json.loads(b.decode("utf-8"), parse_int=Number, parse_float=Number, parse_constant=refuse, object_pairs_hook=Pairs)
    except (ValueError, RecursionError):
        return None
    for s in strings(v):
        if any(c == "\0" or "\ud800" <= c <= "\udfff" for c in s):
            return None
    return (v,)


def scan(b):
    """The brackets open at the end and the place of the 13th, found outside strings."""
    open_, inside, skip, deep = [], False, False, None
    for i, c in enumerate(b):
        if inside:
            if skip:
                skip = False
            elif c == 92:
                skip = True
            elif c == 34:
                inside = False
        elif c == 34:
            inside = True
        elif c in b"[{":
            open_.append(c)
            if len(open_) == 13 and deep is None:
                deep = i
        elif c in b"]}" and open_:
            open_.pop()
    return open_, deep


CONT = [b"", b"\x80", b"\x90", b"\xa0", b"\x80\x80", b"\x90\x80", b"\xa0\x80", b"\x80\x80\x80", b"\x90\x80\x80"]
HEX = [b"", b"1", b"11", b"111", b"1111", b"c00", b"00", b"d800"]
LOW = [b"", b"\\udc00", b"udc00", b"dc00", b"c00", b"00", b"0"]
WORDS = [b"ull", b"ll", b"l", b"rue", b"ue", b"e", b"alse", b"lse", b"se", b"0", b"u1111", b"n"]
MID = [x + y for x in HEX for y in LOW] + CONT + WORDS
TAIL = [b"", b'"', b'":0', b":0", b"0", b'"":0']


def completes(b):
    close = bytes({91: 93, 123: 125}[c] for c in reversed(scan(b)[0]))
    return any(parse(b + m + t + close) for t in TAIL for m in MID)


def stop(b):
    """The first place from which on no completion is well formed."""
    low = 0
    while low < len(b) and completes(b[:low + 1]):
        low += 1
    return low


def value(v):
    if v is None:
        return "n"
    if v is True:
        return "t"
    if v is False:
        return "f"
    if isinstance(v, Number):
        if v.lstrip("-").isdigit() and -2**63 <= int(v) < 2**63:
            return "%+d" % int(v)
        return "x"
    if isinstance(v, str):
        return "s%s:%d" % (v.encode().hex(), len(v))
    return "[" if isinstance(v, list) else "{"


def answer(b):
    deep = scan(b)[1]
    got = parse(b)
    place = len(b) if got else stop(b)
    if deep is not None and deep < place:
        return "deep %d" % deep
    if not got:
        return "stop %d" % place
    v = got[0]
    out = "end %d %s" % (place, value(v))
    if isinstance(v, list):
        out += "".join(" " + value(x) for x in v)
    if isinstance(v, Pairs):
        out += "".join(" %s=%s" % (value(k), value(x)) for k, x in v.pairs)
        if any(k == "a" for k, x in v.pairs):
            out += " a:" + value(dict(v.pairs)["a"])
    return out


def cases():
    # white space and the shortest texts
    yield from [b"", b" ", b"0", b" 0", b"0 ", b"\t\n\r 0 \t\n\r", b"\x0b0", b"\xef\xbb\xbf0", b"0 0", b"0,", b"null", b"nul", b"nulll", b"nUll", b"true", b"tru", b"truf", b"false", b"fals", b"falsy", b"NaN", b"Infinity", b"-Infinity"]
    # numbers
    yield from [b"-0", b"-", b"+1", b"007", b"01", b"-01", b".5", b"1.", b"1.0", b"1.5", b"1e", b"1e2", b"1E+2", b"1e-2", b"1e+", b"1.e1", b"-0.0", b"1x", b"0x1", b"--1", b"1-1"]
    yield from [b"9223372036854775807", b"9223372036854775808", b"-9223372036854775808", b"-9223372036854775809", b"18446744073709551616", b"1" + b"0" * 2000, b"-" + b"9" * 1200, b"[" + b"7" * 300 + b"]", b"0.1" + b"0" * 300]
    # strings and escapes
    yield from [b'""', b'"', b'"a', b'"ab"', b'"a"b', b'"\x1f"', b'"\x20"', b'"\x7f"', b'"\x00"', b'"\t"']
    yield from [b'"\\%c"' % c for c in b'"\\/bfnrtu'] + [b'"\\x41"', b'"\\', b'"\\"', b'"\\"a"', b'"\\B"']
    yield from [b'"\\u%s"' % h for h in (b"0001", b"0000", b"000", b"00x1", b"0041", b"00e9", b"00E9", b"07ff", b"0800", b"d7ff", b"e000", b"fffd", b"ffff", b"FFFF", b"dc00", b"dfff", b"DC00", b"dcx", b"d800", b"dbff", b"000g")]
    yield from [b'"\\ud83d\\ude00"', b'"\\uD83D\\uDE00"', b'"\\ud800\\udc00"', b'"\\udbff\\udfff"', b'"\\ud800\\ud800"', b'"\\ud800\\u0041"', b'"\\ud800\\ue000"', b'"\\ud800\\udb00"', b'"\\ud800\\n"', b'"\\ud800x"', b'"\\ud800\\udc0"', b'"\\ud800\\udc0g"', b'"\\ud800\\', b'"\\ud800', b'"a\\u0041b\\n\\ud83d\\ude00c"']
    # UTF-8 at every boundary
    yield from [b'"%s"' % bytes.fromhex(h) for h in ("c280", "dfbf", "e0a080", "ecbfbf", "ed9fbf", "ee8080", "efbfbf", "f0908080", "f3bfbfbf", "f48fbfbf", "80", "bf", "c0", "c080", "c1bf", "e08080", "e09fbf", "eda080", "edbfbf", "f08080", "f08fbfbf", "f4908080", "f5808080", "f8", "ff", "c2", "c2c2", "c37f", "e0a0", "e0a07f", "e280", "f09080", "f0908041", "f490", "c3a9e282acf09f9880", "41cc80")]
    # arrays and objects
    yield from [b"[]", b"[ ]", b"[", b"[1", b"[1,", b"[1,]", b"[,1]", b"[1 2]", b"[1}", b"]", b"[1]]", b"[1,2 , 3]", b"[[],{},\"a\",null,true,false,-7,1.5]", b"[1,\x00]"]
    yield from [b"{}", b"{ }", b"{", b"}", b'{"a"', b'{"a":', b'{"a":1', b'{"a":1,', b'{"a":1,}', b"{a:1}", b"{1:1}", b'{"a" 1}', b'{"a":1]', b'{"a":1 "b":2}', b'{"a":1,"b":[],"a":"x"}', b'{ "a" : 1 , "\\u0061" : 2 }', b'{"":{}}', b'{"a":\\}', b'{"a\\ud800":1}', b'{"a":1}{']
    # levels
    for n in (1, 11, 12, 13, 14):
        yield b"[" * n + b"]" * n
        yield b'{"a":' * n + b"0" + b"}" * n
    yield from [b"[" * 12 + b"1,[]" + b"]" * 12, b"[" * 12 + b"x[", b"[" * 13, b"[" * 12, b'["[[[[[[[[[[[[[[["]', b"[[],[],[[[[[[[[[[[[]]]]]]]]]]]]", b"[[],[],[[[[[[[[[[[]]]]]]]]]]]]", b'[{"a":[{"b":[{"c":[{"d":[{"e":[{"f":[{}]}]}]}]}]}]}]']


def main():
    table = list(cases())
    if "--show" in sys.argv:
        for b in table:
            print(repr(b[:60]), "->", answer(b)[:100])
        return
    root = os.path.join(os.path.dirname(os.path.abspath(__file__)), "..", "crates", "texts_main")
    with open(os.path.join(root, "stdin"), "wb") as f:
        for b in table:
            f.write(len(b).to_bytes(2, "big") + b)
    with open(os.path.join(root, "stdout"), "w") as f:
        for b in table:
            f.write(answer(b) + "\n")


main()
