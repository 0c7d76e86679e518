#!/usr/bin/env python3
"""Records of comma-separated text by RFC 4180, section 2, as the crate `record` must read them: one regular expression of Python's `re`, and Python's `csv` beside it.

  oracle/records.py      holds this file against results written by hand, and every short text against the refusals' own words and against `csv`

oracle/records-run and tools/import-model take their answers from here. Nothing was taken over from the crate.

A field is plain (any bytes but comma, quote, CR and LF; none too) or quoted (between two quotes a body: bytes other than a quote, and doubled
quotes). A record is fields with commas between them, and ends at CRLF, LF or the end of the text. What follows a record's end is not looked at.
"""
import csv
import itertools
import re
import sys

LIMIT = 65535  # the bytes of a text
SLOTS = 4096   # the slots of a vector

PLAIN = rb'[^,"\r\n]*'
BODY = rb'[^"]*(?:""[^"]*)*'
FIELD = rb'(?:"%b"|%b)' % (BODY, PLAIN)
FIELDS = rb"%b(?:,%b)*" % (FIELD, FIELD)
RECORD = re.compile(rb"(%b)(?:\r\n|\n|\Z)" % FIELDS)

# The same parts by themselves: a field with what stands inside it, the fields as far as they go, and an opened quote whose body goes on to the end.
INSIDE = re.compile(rb'"(%b)"|(%b)' % (BODY, PLAIN))
AS_FAR = re.compile(FIELDS)
OPENED = re.compile(rb'(?:%b,)?(")%b\Z' % (FIELDS, BODY))


def spans(text, end):
    """Where each field starts and ends, inside the outer quotes, in a text whose fields end at `end`."""
    found, at = [], 0
    while True:
        m = INSIDE.match(text, at, end)
        found.append(m.span(m.lastindex))
        if m.end() == end:
            return found
        at = m.end() + 1  # the comma


def look(text):
    """(number, value, spans): 0 with where the next record starts, 9 or 10 with where it is refused, 11 with 0; spans only with 0.

    A text that does not fit is refused with 10 exactly when one more quote at its end makes it fit, with 9 exactly when that does not help.
    """
    if len(text) > LIMIT:
        return 11, 0, []
    fit = RECORD.match(text)
    if fit:
        return 0, fit.end(), spans(text, fit.end(1))
    if RECORD.match(text + b'"'):
        return 10, OPENED.match(text).start(1), []
    return 9, AS_FAR.match(text).end(), []


def refused_at(text):
    """Of a text refused with 9, every p that may be named: the first p bytes fit up to their end, the first p + 1 do not, and with one more quote neither.

    It is always one, which `look` finds faster: as far as the fields go.
    """
    def whole(part):
        m = RECORD.match(part)
        return m and m.end() == len(part)
    return [p for p in range(len(text)) if whole(text[:p]) and not RECORD.match(text[:p + 1]) and not RECORD.match(text[:p + 1] + b'"')]


def invalid(state):
    """Is the state of a vector, (slots, length), invalid?"""
    return state[1] > state[0] or state[0] > SLOTS


def read(seen, starts, ends):
    """(number, value) of the call `read` on a text of which `look` says `seen`, with the states of the two vectors, each (slots, length)."""
    number, value, fields = seen
    if invalid(starts):
        return 1, 0
    if invalid(ends):
        return 2, 0
    if starts[1] or ends[1]:
        return 5, 0
    if number:
        return number, 0
    return (6, 0) if len(fields) > min(starts[0], ends[0]) else (0, value)


def undone(part):
    """A field's bytes with doubled quotes undone: from the left, two quotes beside each other are one. A quote with no other beside it stays."""
    return part.replace(b'""', b'"')


def text_of(text, start, end, room):
    """(number, bytes) of the call `text`."""
    if len(text) > LIMIT:
        return 11, b""
    if not start <= end <= len(text):
        return 3, b""
    inside = undone(text[start:end])
    return (6, b"") if len(inside) > room else (0, inside)


# How `csv` is called matters. It is given the record alone, since it would read on; with its line end, which it drops; as one text, not split into
# lines, since it puts lines together again only as far as quotes are open; as latin-1, so that each byte is a character. Strict, or it takes `"a"b`
# and `"a`. Then it agrees on all that the grammar accepts, but for one thing: of an empty record it says that it has no fields, where one empty
# field is asked for. Before Python 3.11 it refuses a NUL byte; its limit of 131,072 bytes to a field is not reached here.
csv.register_dialect("record", delimiter=",", quotechar='"', doublequote=True, escapechar=None, skipinitialspace=False, quoting=csv.QUOTE_MINIMAL, strict=True)
NUL = sys.version_info >= (3, 11)


def by_csv(record):
    """The fields of a record by Python's `csv`, or what it says against it."""
    try:
        rows = list(csv.reader([record.decode("latin-1")], "record"))
    except csv.Error as e:
        return str(e)
    return [field.encode("latin-1") for field in rows[0] or [""]] if len(rows) == 1 else rows


def agrees(text, seen):
    """Does `csv` read a text as `look` says, in so far as the grammar accepts it?"""
    number, value, fields = seen
    if number or (not NUL and b"\0" in text[:value]):
        return True
    return by_csv(text[:value]) == [undone(text[a:b]) for a, b in fields]


def short(most, letters=b'a,"\r\n'):
    """Every text of up to `most` bytes over some letters, the shortest first."""
    for count in range(most + 1):
        for one in itertools.product(letters, repeat=count):
            yield bytes(one)


BY_HAND = [  # a text, and what must be said of it
    (b"", (0, 0, [(0, 0)])),
    (b"\n", (0, 1, [(0, 0)])),
    (b"\r\n", (0, 2, [(0, 0)])),
    (b",", (0, 1, [(0, 0), (1, 1)])),
    (b"aaa,bbb,ccc\r\nzzz,yyy,xxx\r\n", (0, 13, [(0, 3), (4, 7), (8, 11)])),
    (b'"aaa","b \r\nbb","ccc"\r\nzzz,yyy,xxx', (0, 22, [(1, 4), (7, 13), (16, 19)])),
    (b'"aaa","b""bb","ccc"', (0, 19, [(1, 4), (7, 12), (15, 18)])),
    (b'""', (0, 2, [(1, 1)])),
    (b'""""\n', (0, 5, [(1, 3)])),
    (b'"a,b",c d \nrest"', (0, 11, [(1, 4), (6, 10)])),
    (b"\xef\xbb\xbfa\0b\n", (0, 7, [(0, 6)])),
    (b'a"b', (9, 1, [])),
    (b'a""', (9, 1, [])),
    (b'"a"b', (9, 3, [])),
    (b'x,"a" ,b', (9, 5, [])),
    (b"a\rb", (9, 1, [])),
    (b"a\r", (9, 1, [])),
    (b"\r", (9, 0, [])),
    (b"a,\r\r\n", (9, 2, [])),
    (b'"a"\r', (9, 3, [])),
    (b'"', (10, 0, [])),
    (b'"ab', (10, 0, [])),
    (b'"ab""', (10, 0, [])),
    (b'a,"b\r\nc"",d', (10, 2, [])),
    (b'"x","b\n', (10, 4, [])),
    (b"a" * LIMIT, (0, LIMIT, [(0, LIMIT)])),
    (b'"' + b"a" * (LIMIT - 1), (10, 0, [])),
    (b'"' + b"a" * LIMIT, (11, 0, [])),
    (b"\n" * (LIMIT + 1), (11, 0, [])),
]


def main():
    faults = [f"{text[:40]!r}: {look(text)}, and by hand {said}" for text, said in BY_HAND if look(text) != said]
    count = dict.fromkeys((0, 9, 10), 0)
    for text in itertools.chain(short(7), short(4, b'a,"\r\n \0\xff\\\'\t')):
        seen = look(text)
        count[seen[0]] += 1
        if not agrees(text, seen):
            faults.append(f"{text!r}: {seen}, and csv says {by_csv(text[:seen[1]])}")
        if seen[0] == 9 and refused_at(text) != [seen[1]]:
            faults.append(f"{text!r}: {seen}, and 9 may name {refused_at(text)}")
    for row in faults[:20]:
        print(row)
    print(f"oracle/records.py: {len(BY_HAND)} texts by hand, {sum(count.values())} short ones ({', '.join(f'{k}: {n}' for k, n in count.items())}), {len(faults)} faults")
    return 1 if faults else 0


if __name__ == "__main__":
    sys.exit(main())
