"""The parts of random requests: values, documents, filters, updates, sorts, projections and page states, right and wrong."""
import base64

import views
from filters import OPERATORS
from updates import UPDATE_OPERATORS
from values import PLACES, RANGE, SOME_ID, Date, Number, quoted

NAMES = ["_id", "a", "b", "k", "n", "tags", "a-b", "a b", "", "$date", "$x", "x" * 100, "x" * 101, "é", "0", "1", "10"]
TEXTS = ["", "a", "b", "x", "ab", "é", "\u20ac", "\U0001F600", "\"", "\\", "/", "\b\f\n\r\t", "\x01", "\x7f", "a" * 14,
         "a" * 15, "a" * 22, "a" * 23, "\n" * 9, "y" * 300]
NUMERALS = ["0", "-0", "1", "-1", "2", "1.5", "1.50", "10e-19", "1e-18", "1e-19", "1e3", "1E+3", "0e999", "0.0e-999",
            "99999999999999999999", "99999999999999999999.999999999999999999", "100000000000000000000", "1e20", "1e19",
            "-1e20", "0.000000000000000001", "0.0000000000000000010", "0.0000000000000000001", "123456789012345678",
            "1234567890123456789", "9223372036854775807", "9223372036854775808", "-9223372036854775808",
            "-9223372036854775809", "1e99999999999999999999", "0.1e1", "00", "01", "1.", ".5", "-", "+1", "1e", "1e+"]

SORTED = ["n", "n", "a", "b", "k", "tags", "_id", "a.b", "tags.0", "k.a", "zz", "zz.n", "a.a"]
SHOWN = ["a", "b", "k", "n", "tags", "a.a", "a.b", "a.b.k", "k.a", "tags.0", "tags.a", "zz", "b.a.a"]
SEEDED = ["_id", "_id", "_id", "a", "a", "b", "k", "n", "tags", "a.b", "a.b.k", "k.a", "tags.0", "tags.2", "a.999", "a.1000",
          "n.x", "_id.x", "b.0.a"]
NO_PATHS = ["", "a..b", "a b", "$x", "a.", "x" * 101, "_id.a"]
GIVEN = [0, 1, 19, 20, 40, 100, 2 ** 31, 2 ** 63 - 21, 2 ** 63 - 20, 2 ** 63 - 1, 2 ** 63, 2 ** 64 - 1]
LAST = [True, False, None, "a", "d", "d5", "\u00e9", "x" * 300, Number(0), Number(RANGE - 1), Number(1 - RANGE),
        Number(-1), Date(0), Date(-1), Date(2 ** 63 - 1), Date(-2 ** 63)]
# Bytes that are no key of an id.
NO_KEYS = [b"", b"\x01", b"\x01\xff", b"\x00", b"\x06", b"\x01a\x80", b"\x02" + b"\xff" * 16, b"\x02" + b"\x80" * 15,
           b"\x02" + (RANGE + 2 ** 127).to_bytes(16, "big"), b"\x03", b"\x03\x02", b"\x04\x00", b"\x05" + b"\x80" * 7]
# What is no id, and what is a right or wrong one.
NO_IDS = ['""', "[1]", "{}", '{"x":1}', "[]"]
ODD_IDS = NO_IDS + ["true", "null", '"\\u0041"', "1.0", '{"$date":1.5}', '"%s"' % ("i" * 8_000), '"%s"' % ("i" * 8_001)]
# What may not be put into a document.
UNFIT = ['{"a b":1}', '{"":1}', '{"%s":1}' % ("x" * 101), '[{"é":1}]', '{"a":{"$x":1}}', '{"$eq":{"$date":"x"}}',
         '{"$eq":{"$y":1}}']


class Pieces:
    def __init__(self, rng):
        self.rng = rng
        # The ids that the program generated so far, as its replies showed them.
        self.generated = []

    def blank(self):
        return self.rng.choice(["", "", "", "", " ", "\t", "\r", "  "])

    def often(self, chance, text):
        return [text] if self.rng.random() < chance else []

    # ---- values ----

    def numeral(self):
        if self.rng.random() < 0.4:
            return self.rng.choice(NUMERALS)
        digits = "".join(self.rng.choice("0123456789") for _ in range(self.rng.randint(1, 22))).lstrip("0") or "0"
        fraction = "." + "".join(self.rng.choice("0123456789") for _ in range(self.rng.randint(1, 20)))
        exponent = self.rng.choice("eE") + self.rng.choice(["", "+", "-"]) + str(self.rng.randint(0, 25))
        return (self.rng.choice(["", "-"]) + digits + (fraction if self.rng.random() < 0.4 else "")
                + (exponent if self.rng.random() < 0.2 else ""))

    def quoted(self, text):
        if self.rng.random() < 0.9:
            return quoted(text)
        units = text.encode("utf-16-be")
        codes = ["\\u%02x%02X" % (units[i], units[i + 1]) for i in range(0, len(units), 2)]
        return '"' + "".join(codes) + '"'

    def text(self):
        if self.rng.random() < 0.02:
            return self.rng.choice(['"\\ud800"', '"\\udc00"', '"\\ud800\\u0041"', '"a', '"\\x"', '"\x01"', '"\\u12"'])
        return self.quoted(self.rng.choice(TEXTS))

    def value(self, deep):
        pick = self.rng.random()
        if deep > 0 and pick < 0.2:
            return self.object(deep - 1)
        if deep > 0 and pick < 0.35:
            items = [self.value(deep - 1) for _ in range(self.rng.choice([0, 1, 2, 3, 9]))]
            return "[" + self.blank() + ("," + self.blank()).join(items) + self.blank() + "]"
        if pick < 0.4:
            return '{"$date":%s}' % self.numeral()
        if pick < 0.6:
            return self.numeral()
        if pick < 0.75:
            return self.rng.choice(["true", "false", "null", "tru", "nulll", "True"] if pick < 0.62 else ["true", "false", "null"])
        return self.text()

    def object(self, deep, names=None):
        count = self.rng.choice([0, 1, 2, 3, 5, 40] if self.rng.random() < 0.1 else [0, 1, 1, 2, 3])
        pairs = []
        for _ in range(count):
            name = self.rng.choice(names or NAMES[:7] if self.rng.random() < 0.9 else NAMES)
            pairs.append(self.quoted(name) + self.blank() + ":" + self.blank() + self.value(deep))
        return "{" + self.blank() + ("," + self.blank()).join(pairs) + self.blank() + "}"

    def deep(self):
        levels = self.rng.choice([13, 14, 15, 16, 28, 29, 30, 31, 32, 40])
        return "[" * levels + "1" + "]" * levels

    def plain(self, deep):
        """A value without a fault, mostly a small one."""
        if deep == 0 or self.rng.random() < 0.6:
            return self.rng.choice(["0", "1", "2", "-1.5", "1e3", '"a"', '"x"', '"b"', "true", "false", "null", '{"$date":5}'])
        items = [self.plain(deep - 1) for _ in range(self.rng.choice([0, 1, 2, 3]))]
        if self.rng.random() < 0.5:
            return "[" + ",".join(items) + "]"
        return "{" + ",".join('"%s":%s' % (name, item) for name, item in zip("abk", items)) + "}"

    # ---- documents ----

    def number(self):
        return self.rng.randint(0, 60)

    def own_id(self):
        """An id, spelled, mostly one that some document has; now and then none."""
        pick = self.rng.random()
        if pick < 0.06:
            return self.rng.choice(ODD_IDS)
        if pick < 0.2 and self.generated:
            return quoted(self.rng.choice(self.generated[-9:]))
        return self.rng.choice(["%d", "%d", '"d%d"', "%d.5", '{"$date":%d}']) % self.number()

    def document(self, plain=0.5):
        """A document of an insertion, of plain members as often as this; now and then without an id."""
        pick = self.rng.random()
        if pick < 0.1 * (1 - plain):
            return self.object(3)
        own = ['"_id":' + self.own_id()] if pick < 0.88 else []
        if self.rng.random() < plain:
            members = self.rng.sample(["a", "b", "k", "n", "tags"], self.rng.randint(1, 5))
            return "{" + ",".join(own + ['"%s":%s' % (name, self.plain(2)) for name in members]) + "}"
        body = self.object(self.rng.randint(0, 4))[1:-1].strip(" \t\r")
        return "{" + ",".join(own + [body] * (body != "")) + "}"

    def limits(self):
        """A document at a limit, or one past it, with and without an id."""
        own = self.rng.choice(['"_id":"l%d",' % self.rng.randint(0, 9), '"_id":%d,' % self.rng.randint(0, 9), "", ""])
        if self.rng.random() < 0.1:
            return self.longest(own)
        return "{" + own + self.rng.choice([
            '"t":"%s"' % ("x" * self.rng.choice([7_999, 8_000, 8_001])),
            '"l":[%s]' % ",".join(["0"] * self.rng.choice([999, 1_000, 1_001])),
            ",".join('"m%d":0' % i for i in range(self.rng.choice([998, 999, 1_000, 1_001]))),
            '"d":' + self.deep(),
            ",".join('"%s":{%s}' % (c, ",".join('"%d":1' % i for i in range(n))) for c, n in
                     [("a", 990), ("b", self.rng.choice([1_000, 1_006, 1_007, 1_008]))]),
            '"' + '":{"'.join(["p" * 99] * 10) + '":' + self.rng.choice(['{"q":1}', "1", '{"qq":1}']) + "}" * 9,
        ]) + "}"

    def longest(self, own):
        """A document of as many bytes as one may have, an id that is to be generated counted, or one more or less."""
        wanted = 1_000_000 + self.rng.choice([-1, 0, 0, 1])
        front = len(own or '"_id":"%s",' % SOME_ID)
        texts, left = [], wanted - front - 1
        while left > 0:
            name = '"m%03d":"' % len(texts)
            # A member takes 9 bytes beside its text, and a comma or the brace stands in front.
            size = min(left - 10, 7_000) if left > 7_020 or left <= 7_010 else 6_000
            texts.append(name + "x" * size + '"')
            left -= size + 10
        return "{" + own + ",".join(texts) + "}"

    # ---- filters ----

    def condition(self):
        pick = self.rng.random()
        if pick < 0.4:
            return self.value(1)
        operator = self.rng.choice(OPERATORS + ["$gte", "$in", "$foo", "x", "$and"])
        operand = self.value(1)
        if operator in ("$in", "$nin", "$all") and self.rng.random() < 0.9:
            count = self.rng.choice([0, 1, 2, 3] if self.rng.random() < 0.95 else [100, 101])
            operand = "[" + ",".join(self.value(0) for _ in range(count)) + "]"
        if operator == "$exists" and self.rng.random() < 0.9:
            operand = self.rng.choice(["true", "false"])
        if operator == "$size" and self.rng.random() < 0.9:
            operand = self.rng.choice(["0", "1", "2", "3", "1000000", "1000001", "-1", "1.5", "2.0"])
        return "{" + self.quoted(operator) + ":" + operand + "}"

    def filter(self, deep=2):
        pairs = []
        for _ in range(self.rng.choice([0, 1, 1, 1, 2])):
            pick = self.rng.random()
            if deep and pick < 0.15:
                inner = "[" + ",".join(self.filter(deep - 1) for _ in range(self.rng.randint(0, 3))) + "]"
                pairs.append('"%s":%s' % (self.rng.choice(["$and", "$or"]), inner if pick < 0.14 else "{}"))
            elif deep and pick < 0.22:
                pairs.append('"$not":%s' % self.filter(deep - 1))
            else:
                path = self.rng.choice(NAMES[:6] + ["a.b", "tags.0", "a.k.n", "tags.10", "a.01", "a..b", "$nor", "a b", "_id"])
                pairs.append(self.quoted(path) + ":" + self.condition())
        return "{" + ",".join(pairs) + "}"

    def seed_value(self, path):
        if path == "_id":
            return self.own_id() if self.rng.random() < 0.5 else self.rng.choice(['"u%d"', "%d"]) % self.rng.randint(100, 300)
        return self.rng.choice(UNFIT) if self.rng.random() < 0.05 else self.plain(2)

    def seed(self, deep=2):
        """A filter of which an upsert takes something: equalities, one behind the other and in each other's way."""
        pairs = []
        for _ in range(self.rng.choice([1, 1, 2, 2, 3])):
            pick = self.rng.random()
            if deep and pick < 0.2:
                inner = ",".join(self.seed(deep - 1) for _ in range(self.rng.choice([0, 1, 2, 2])))
                pairs.append('"%s":[%s]' % (self.rng.choice(["$and", "$and", "$and", "$or"]), inner))
            elif deep and pick < 0.23:
                pairs.append('"$not":' + self.seed(deep - 1))
            else:
                path = self.rng.choice(SEEDED)
                value = self.seed_value(path)
                forms = [value, value, value, '{"$eq":%s}' % value, '{"$eq":%s,"$ne":77}' % value, '{"$in":[%s]}' % value,
                         '{"$exists":false,"$eq":%s}' % value, '{"$all":[%s]}' % value, '{"$gt":5}']
                pairs.append(quoted(path) + ":" + self.rng.choice(forms))
        return "{" + ",".join(pairs) + "}"

    def loose(self):
        """A filter that many documents match, or none at all."""
        return self.rng.choice([None, "{}", '{"_id":{"$ne":"d7"}}', '{"n":{"$exists":true}}', '{"zz":{"$exists":false}}',
                                '{"a":{"$ne":1}}', self.filter()])

    # ---- updates ----

    def form(self, placed):
        parts = ['"$each":[%s]' % ",".join(self.plain(1) for _ in range(self.rng.choice([0, 1, 2, 3])))]
        if placed and self.rng.random() < 0.6:
            parts.append('"$position":' + self.rng.choice(["0", "1", "2", "-1", "-3", "99", "1.0", "1.5", "9223372036854775808"]))
        if self.rng.random() < 0.05:
            parts.append(self.rng.choice(['"$slice":1', '"x":1', '"$position":0']))
        self.rng.shuffle(parts)
        return "{" + ",".join(parts) + "}"

    def operand(self, operator):
        pick = self.rng.random()
        if operator == "$currentDate":
            return self.rng.choice(["false", "1", "{}"])
        if pick < 0.04:
            return self.value(1)
        if operator in ("$inc", "$mul"):
            return self.numeral() if pick < 0.3 else self.rng.choice(["1", "-1", "2", "0", "0.5", "-0.25", "1e18", "1e19"])
        if operator == "$rename":
            return self.quoted(self.path())
        if operator == "$pop":
            return self.rng.choice(["1", "-1", "1.0", "-1", "0"]) if pick < 0.3 else self.rng.choice(["1", "-1"])
        if operator in ("$push", "$addToSet") and pick < 0.5:
            return self.form(operator == "$push")
        return self.plain(0 if operator in ("$min", "$max") else 2)

    def path(self):
        return self.rng.choice(NAMES[1:6] + ["a.b", "tags.0", "a.k.n", "tags.10", "tags.3.x", "b.c", "n.x", "k.0", "a.999", "a.1000"]
                               + (["a.01", "a..b", "_id", "_id.x", "a b", ""] if self.rng.random() < 0.1 else []))

    def update(self):
        operators = self.rng.sample(UPDATE_OPERATORS, self.rng.choice([0, 1, 1, 1, 2, 2, 3]))
        if self.rng.random() < 0.03:
            operators.append(self.rng.choice(["$near", "a", "$SET", "$currentDate"]))
        texts = []
        for operator in operators:
            count = self.rng.choice([0, 1, 1, 1, 2])
            clauses = [self.quoted(self.path()) + ":" + self.operand(operator) for _ in range(count)]
            texts.append('"%s":%s' % (operator, "{" + ",".join(clauses) + "}" if self.rng.random() < 0.99 else "[]"))
        return "{" + ",".join(texts) + "}"

    def mild(self):
        """An update that most documents take, and that many of them have taken already."""
        return self.rng.choice([
            '{"$set":{"k":%d}}' % self.rng.randint(0, 9), '{"$inc":{"n":%s}}' % self.rng.choice(["1", "-1", "0", "0.5"]),
            '{"$max":{"n":%d}}' % self.rng.randint(0, 40), '{"$unset":{"%s":1}}' % self.rng.choice("ab"),
            '{"$addToSet":{"tags":%d}}' % self.rng.randint(0, 3), '{"$push":{"tags":%d}}' % self.rng.randint(0, 3),
            '{"$pop":{"tags":1}}', '{"$set":{"t.u":"%s"}}' % self.rng.choice("xy"), '{"$rename":{"a":"m"}}',
            '{"$mul":{"n":2},"$set":{"b":true}}', '{"$setOnInsert":{"k":1}}', '{}'])

    def replacement(self, own=None):
        """A replacement, with this id in front, or between other members, or another one, or none."""
        pick = self.rng.random()
        if pick < 0.06:
            return self.limits()
        if pick < 0.12:
            return self.object(2)
        own = own if own and self.rng.random() < 0.8 else self.own_id()
        parts = ['"%s":%s' % (name, self.plain(2)) for name in self.rng.sample("abkn", self.rng.randint(0, 3))]
        if self.rng.random() < 0.02:
            parts.append('"t":' + self.rng.choice(UNFIT))
        if pick < 0.4:
            parts.insert(self.rng.choice([0, 0, len(parts)]), '"_id":' + own)
        return "{" + ",".join(parts) + "}"

    # ---- sorts, projections, page states ----

    def sort(self):
        if self.rng.random() < 0.03:
            return self.value(1)
        count = self.rng.choice([1, 1, 1, 2, 2, 3] if self.rng.random() < 0.95 else [0, 8, 9])
        paths = ["p%d" % i for i in range(count)] if count > 3 else [self.rng.choice(SORTED) for _ in range(count)]
        if self.rng.random() < 0.03:
            paths.insert(self.rng.randint(0, count), self.rng.choice(NO_PATHS))
        wrong = ["1.0", "-1.00", "1e0", "0", "2", "-2", "true", '"1"', "null", "[1]", "1.5"]
        return "{" + ",".join('%s:%s' % (quoted(path), self.rng.choice(wrong if self.rng.random() < 0.03 else ["1", "-1"]))
                              for path in paths) + "}"

    def slice(self):
        numbers = ["0", "1", "2", "3", "-1", "-2", "-9", "1e3", "9223372036854775807", "-9223372036854775808"]
        wrong = ["9223372036854775808", "-9223372036854775809", "1.5", '"1"', "null", "[]", "[1]", "[1,0]", "[0,-1]", "[1,2,3]"]
        if self.rng.random() < 0.05:
            return self.rng.choice(['{"$slice":%s}' % self.rng.choice(wrong), '{"$slice":1,"x":1}', "{}", '{"$size":1}'])
        operand = self.rng.choice(numbers)
        if self.rng.random() < 0.5:
            operand = "[%s,%s]" % (operand, self.rng.choice(["1", "2", "9", "9223372036854775807"]))
        return '{"$slice":%s}' % operand

    def projection(self):
        if self.rng.random() < 0.03:
            return self.value(1)
        on, off = (["1", "true", "1.0"], ["0", "false", "-0"])
        usual, other = (on, off) if self.rng.random() < 0.5 else (off, on)
        pairs = []
        for path in self.rng.sample(SHOWN, self.rng.choice([0, 1, 1, 2, 2, 3])):
            pick = self.rng.random()
            shows = self.slice() if pick < 0.3 else self.rng.choice(
                usual if pick < 0.96 else other if pick < 0.98 else ["2", "-1", "0.5", '"1"', "null", "[]"])
            pairs.append(quoted(path) + ":" + shows)
        if self.rng.random() < 0.3:
            pairs.append('"_id":' + self.rng.choice(on + off + [self.slice()]))
        if self.rng.random() < 0.03:
            pairs.append(quoted(self.rng.choice(NO_PATHS)) + ":1")
        self.rng.shuffle(pairs)
        return "{" + ",".join(pairs) + "}"

    def some_id(self):
        number = self.rng.randint(0, 60)
        return self.rng.choice(LAST + [Number(number * 10 ** PLACES), "d%d" % number, Date(number)] * 6)

    def state(self, told):
        """A page state that no page of this listing gave, perhaps one of these, or none at all."""
        pick = self.rng.random()
        if pick < 0.3 and told:
            return self.rng.choice(told)
        if pick < 0.7:
            return views.print_state(self.rng.choice(GIVEN), self.some_id())
        if pick < 0.85:
            head = self.rng.choice([b"\x01", b"\x01", b"\x01", b"\x00", b"\x02", b""]) + (20).to_bytes(8, "big")
            key = self.rng.choice(NO_KEYS + [b"\x01a"])
            return base64.b64encode((head + key)[:self.rng.choice([99, 99, 99, 8, 9, 1])]).decode()
        text = views.print_state(20, self.some_id())
        spot = self.rng.randrange(len(text))
        return self.rng.choice(["", "AA==", "=", text + "=", text.rstrip("="), text[:-1], " " + text, text + "\n", text + "AAAA",
                                text[:spot] + self.rng.choice("-_ =é/+B") + text[spot + 1:]])

    def bound(self, most):
        wrong = ["-1", "1.5", "2147483648", '"1"', "null", "true", "[]"]
        edges = ["0", "1", "20", "21", "2147483647", "2.0", str(most), str(most + 1)]
        pick = self.rng.random()
        return self.rng.choice(wrong if pick < 0.04 else edges if pick < 0.4 else [str(self.rng.randint(0, 70))])

    def limit(self):
        return self.rng.choice([None, None, None, self.bound(40)])
