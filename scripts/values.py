"""Values of the plain model: their JSON, their paths and orders, and what documents may be.

Values: None, True, False, Number, str, Date, list, Members.
"""
import re

PLACES = 18
RANGE = 10 ** 38
DEEPEST = 32
NAME = re.compile(r"[A-Za-z0-9_-]*\Z")
COLLECTION = re.compile(r"[A-Za-z][A-Za-z0-9_]{0,47}\Z")
NUMERAL = re.compile(r"-?(0|[1-9][0-9]*)(?:\.([0-9]+))?(?:[eE]([+-]?[0-9]+))?\Z")


class Number:
    """An exact number, as a count of 10^-18."""

    def __init__(self, units):
        self.units = units

    def __eq__(self, other):
        return isinstance(other, Number) and self.units == other.units


class Date:
    """A moment in milliseconds."""

    def __init__(self, moment):
        self.moment = moment

    def __eq__(self, other):
        return isinstance(other, Date) and self.moment == other.moment


class Members:
    """An object: pairs of distinct names and values, in order."""

    def __init__(self, pairs):
        self.pairs = pairs

    def __eq__(self, other):
        return isinstance(other, Members) and same(self, other)

    def get(self, name):
        for key, value in self.pairs:
            if key == name:
                return value
        return ABSENT

    def names(self):
        return [key for key, _ in self.pairs]


class Absent:
    pass


ABSENT = Absent()


class Fault(Exception):
    """A refusal, with its code and message, the refusals before it, and the status that tells of the writes before it, if
    there is one."""

    def __init__(self, code, message):
        super().__init__(message)
        self.code = code
        self.message = message
        self.before = []
        self.status = ""


def kind(value):
    if value is None:
        return "null"
    if isinstance(value, bool):
        return "bool"
    return {Number: "number", str: "text", Date: "date", list: "list", Members: "object"}[type(value)]


def same(a, b):
    if kind(a) != kind(b):
        return False
    if isinstance(a, list):
        return len(a) == len(b) and all(same(x, y) for x, y in zip(a, b))
    if isinstance(a, Members):
        return len(a.pairs) == len(b.pairs) and all(
            k == l and same(x, y) for (k, x), (l, y) in zip(a.pairs, b.pairs))
    return a == b


# ---- JSON ----

def units_of(numeral):
    """The count of 10^-18 that a numeral spells, or None where it is no number."""
    found = NUMERAL.match(numeral)
    whole, fraction, exponent = found.group(1), found.group(2) or "", int(found.group(3) or "0")
    digits = (whole + fraction).lstrip("0")
    if not digits:
        return 0
    shift = PLACES - len(fraction) + exponent
    if shift < 0:
        if len(digits) <= -shift or digits[shift:].strip("0"):
            return None
        digits, shift = digits[:shift], 0
    if len(digits) + shift > 38:
        return None
    units = int(digits) * 10 ** shift
    return -units if numeral.startswith("-") else units


def string_at(text, start):
    """The string whose quote stands at start: its content and the place behind it; None where malformed."""
    out, i = [], start + 1
    simple = {'"': '"', "\\": "\\", "/": "/", "b": "\b", "f": "\f", "n": "\n", "r": "\r", "t": "\t"}
    while i < len(text):
        c = text[i]
        if c == '"':
            return "".join(out), i + 1
        if ord(c) < 0x20:
            return None
        if c != "\\":
            out.append(c)
            i += 1
            continue
        escape = text[i + 1:i + 2]
        if escape in simple and escape:
            out.append(simple[escape])
            i += 2
            continue
        unit = hexadecimal(text, i)
        if unit is None or 0xDC00 <= unit < 0xE000:
            return None
        i += 6
        if 0xD800 <= unit < 0xDC00:
            low = hexadecimal(text, i)
            if low is None or not 0xDC00 <= low < 0xE000:
                return None
            unit = 0x10000 + ((unit - 0xD800) << 10) + (low - 0xDC00)
            i += 6
        out.append(chr(unit))
    return None


def hexadecimal(text, i):
    found = re.match(r"\\u([0-9a-fA-F]{4})", text[i:i + 6])
    return int(found.group(1), 16) if found else None


def token_at(text, i):
    """(kind, payload, start, end) of the token from i on; kind 'bad' where it is malformed."""
    while i < len(text) and text[i] in " \t\n\r":
        i += 1
    if i == len(text):
        return "end", None, i, i
    c = text[i]
    if c in "{}[]:,":
        return c, None, i, i + 1
    if c == '"':
        found = string_at(text, i)
        return ("bad", None, i, i) if found is None else ("string", found[0], i, found[1])
    if c == "-" or "0" <= c <= "9":
        end = i
        while end < len(text) and text[end] in "0123456789+-.eE":
            end += 1
        numeral = text[i:end]
        return ("number", numeral, i, end) if NUMERAL.match(numeral) else ("bad", None, i, i)
    if "a" <= c <= "z":
        end = i
        while end < len(text) and "a" <= text[end] <= "z":
            end += 1
        word = {"true": True, "false": False, "null": None}
        return ("word", word[text[i:end]], i, end) if text[i:end] in word else ("bad", None, i, i)
    return "bad", None, i, i


class Reader:
    def __init__(self, text):
        self.text = text
        self.take(0)

    def take(self, place):
        self.kind, self.payload, self.start, self.end = token_at(self.text, place)

    def next(self):
        self.take(self.end)

    def refuse(self, what="not JSON"):
        at = len(self.text[:self.start].encode())
        if what == "number":
            raise Fault("NUMBER_OUT_OF_RANGE", f"Number is out of range at byte {at}")
        raise Fault("INVALID_JSON", f"Body is {what} at byte {at}")

    def value(self, levels):
        if self.kind in "{[":
            if levels == DEEPEST:
                self.refuse("nested too deep")
            return self.object(levels) if self.kind == "{" else self.list(levels)
        if self.kind == "number":
            units = units_of(self.payload)
            if units is None:
                self.refuse("number")
            value = Number(units)
        elif self.kind in ("string", "word"):
            value = self.payload
        else:
            self.refuse()
        self.next()
        return value

    def list(self, levels):
        self.next()
        items = []
        if self.kind == "]":
            self.next()
            return items
        while True:
            items.append(self.value(levels + 1))
            if self.kind == "]":
                self.next()
                return items
            if self.kind != ",":
                self.refuse()
            self.next()

    def object(self, levels):
        self.next()
        members = {}
        if self.kind == "}":
            self.next()
            return Members([])
        while True:
            if self.kind != "string":
                self.refuse()
            name = self.payload
            self.next()
            if self.kind != ":":
                self.refuse()
            self.next()
            members[name] = self.value(levels + 1)
            if self.kind == "}":
                self.next()
                return dated(Members(list(members.items())))
            if self.kind != ",":
                self.refuse()
            self.next()


def dated(members):
    if members.names() == ["$date"] and isinstance(members.pairs[0][1], Number):
        moment, rest = divmod(members.pairs[0][1].units, 10 ** PLACES)
        if rest == 0 and -2 ** 63 <= moment < 2 ** 63:
            return Date(moment)
    return members


def read(body):
    try:
        text = body.decode()
    except UnicodeDecodeError as fault:
        raise Fault("INVALID_JSON", f"Body is not UTF-8 at byte {fault.start}") from None
    reader = Reader(text)
    value = reader.value(0)
    if reader.kind != "end":
        reader.refuse()
    return value


SHORT = {'"': '\\"', "\\": "\\\\", "\b": "\\b", "\t": "\\t", "\n": "\\n", "\f": "\\f", "\r": "\\r"}


def quoted(text):
    return '"' + "".join(SHORT.get(c) or (f"\\u{ord(c):04x}" if ord(c) < 0x20 else c) for c in text) + '"'


def number_text(units):
    whole, rest = divmod(abs(units), 10 ** PLACES)
    text = str(whole) + (f".{rest:018d}".rstrip("0") if rest else "")
    return "-" + text if units < 0 else text


def text_of(value):
    """The canonical text."""
    what = kind(value)
    if what in ("null", "bool"):
        return {None: "null", True: "true", False: "false"}[value]
    if what == "number":
        return number_text(value.units)
    if what == "text":
        return quoted(value)
    if what == "date":
        return '{"$date":%d}' % value.moment
    if what == "list":
        return "[" + ",".join(map(text_of, value)) + "]"
    return "{" + ",".join(quoted(k) + ":" + text_of(v) for k, v in value.pairs) + "}"


# ---- documents ----

def names_in(value):
    """All member names, in the order of the text."""
    if isinstance(value, list):
        for item in value:
            yield from names_in(item)
    elif isinstance(value, Members):
        for name, inner in value.pairs:
            yield name
            yield from names_in(inner)


def parts_in(value, path=()):
    """Each value with its path."""
    yield path, value
    inner = []
    if isinstance(value, list):
        inner = [(str(i), item) for i, item in enumerate(value)]
    elif isinstance(value, Members):
        inner = value.pairs
    for part, item in inner:
        yield from parts_in(item, path + (part,))


def levels(value):
    inner = value if isinstance(value, list) else [v for _, v in value.pairs] if isinstance(value, Members) else None
    return 0 if inner is None else 1 + max([levels(v) for v in inner], default=0)


def size(text):
    return len(text.encode())


def limit_fault(document):
    """The first broken limit: (number, bound, found)."""
    values = [value for _, value in parts_in(document)]
    names = [size(name) for name in names_in(document)]
    objects = [len(value.pairs) for value in values if isinstance(value, Members)]
    lists = [len(value) for value in values if isinstance(value, list)]
    paths = [size(".".join(path)) for path, _ in parts_in(document)]
    texts = [size(value) for value in values if isinstance(value, str)]
    counts = [(1, 1_000_000, size(text_of(document))), (2, 16, levels(document)), (3, 1, min(names, default=1)),
              (4, 100, max(names, default=0)), (5, 1_000, max(paths)), (6, 1_000, max(objects, default=0)),
              (7, 2_000, sum(objects)), (8, 1_000, max(lists, default=0)), (9, 8_000, max(texts, default=0))]
    for number, bound, found in counts:
        if (found < bound) if number == 3 else (found > bound):
            return number, bound, found
    return None


def is_id(value):
    return value is not ABSENT and not isinstance(value, (list, Members)) and not (isinstance(value, str) and value == "")


def judge_names(document):
    """Refuses an object whose `_id` is there and is none, or in which a name isn't allowed."""
    document_id = document.get("_id")
    if isinstance(document_id, (list, Members)):
        raise Fault("SHRED_BAD_DOCID_TYPE", "Field _id is of the wrong kind")
    if isinstance(document_id, str) and document_id == "":
        raise Fault("SHRED_BAD_DOCID_EMPTY_STRING", "Field _id is an empty text")
    for name in names_in(document):
        if not NAME.match(name):
            raise Fault("SHRED_DOC_KEY_NAME_VIOLATION", f"Member name is not allowed: {name}")


def judge_limits(document):
    """Refuses a document that breaks a limit."""
    broken = limit_fault(document)
    if broken:
        raise Fault("SHRED_DOC_LIMIT_VIOLATION", "Document limit %d is %d, found %d" % broken)


# As long as an id that is generated.
SOME_ID = "x" * 36


def judge_document(document):
    """Refuses a document that may not be stored; one without an id is judged with one of 36 letters in front."""
    judge_names(document)
    own = document.get("_id")
    judge_limits(Members([("_id", SOME_ID)] + document.pairs) if own is ABSENT else document)


# ---- paths and orders ----

def path_parts(text):
    parts = text.split(".")
    good = 1 <= size(text) <= 1000 and all(1 <= size(part) <= 100 and NAME.match(part) for part in parts)
    return parts if good else None


def value_at(value, parts):
    for part in parts:
        if isinstance(value, Members):
            value = value.get(part)
        elif isinstance(value, list) and re.match(r"(0|[1-9][0-9]*)\Z", part) and int(part) < len(value):
            value = value[int(part)]
        else:
            return ABSENT
        if value is ABSENT:
            return ABSENT
    return value


def ordered(value):
    return {"number": lambda: value.units, "date": lambda: value.moment, "text": lambda: value.encode()}[kind(value)]()


SCALARS = ["null", "number", "text", "bool", "date"]


def scalar_key(value):
    return SCALARS.index(kind(value)), int(value) if isinstance(value, bool) else 0 if value is None else ordered(value)


TAGS = {"text": 1, "number": 2, "bool": 3, "null": 4, "date": 5}


def id_key(value):
    """What ids are ordered by."""
    what = kind(value)
    key = ordered(value) if what in ("text", "number", "date") else 0 if value is None else int(value)
    return TAGS[what], key


def whole(value, low, high):
    """The whole number within these bounds that a value is, or None."""
    count, rest = divmod(value.units, 10 ** PLACES) if isinstance(value, Number) else (0, 1)
    return count if rest == 0 and low <= count <= high else None
