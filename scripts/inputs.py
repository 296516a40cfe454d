"""Random input for the program and its model: lines of requests, valid and broken."""
import re

import model
import views
from commands import ON_COLLECTIONS, OPTIONS, ROWS
from generated import FORM
from pieces import UNFIT, Pieces
from values import PLACES, Number, quoted

# How often a command comes in an input of each kind.
WEIGHTS = {
    "even": dict(insertOne=6, insertMany=3, findOne=4, find=7, countDocuments=3, updateOne=5, updateMany=4, deleteOne=1,
                 deleteMany=1, findOneAndUpdate=4, findOneAndReplace=4, findOneAndDelete=1, createCollection=1,
                 findCollections=1, deleteCollection=0.3),
    "filling": dict(insertOne=32, insertMany=2, findOne=4, countDocuments=1, updateOne=4, updateMany=1, deleteOne=1),
    "searches": dict(insertOne=4, findOne=8, find=36, countDocuments=4, updateOne=6, updateMany=2, deleteOne=1,
                     findOneAndUpdate=2, findOneAndReplace=1),
    "changes": dict(insertOne=8, insertMany=1, findOne=1, find=4, countDocuments=2, updateOne=2, updateMany=24, deleteOne=2,
                    deleteMany=2, findOneAndUpdate=1, findOneAndDelete=1),
    "ones": dict(insertOne=4, insertMany=2, findOne=2, find=4, countDocuments=1, updateOne=7, updateMany=5, deleteOne=2,
                 deleteMany=1, findOneAndUpdate=9, findOneAndReplace=9, findOneAndDelete=4),
    "insertions": dict(insertOne=3, insertMany=20, find=4, countDocuments=1, updateOne=1, deleteMany=3, deleteOne=3),
    "collections": dict(insertOne=8, insertMany=3, findOne=2, find=3, countDocuments=2, updateOne=4, updateMany=2, deleteOne=1,
                        deleteMany=1, findOneAndUpdate=1, findOneAndReplace=1, findOneAndDelete=1, createCollection=10,
                        findCollections=5, deleteCollection=8)}
KINDS = ["even", "even", "searches", "changes", "changes", "ones", "ones", "insertions", "collections"]

# The collections that requests ask for, most often the first ones; of some kinds of input all as often.
PLACES_ASKED = ["c"] * 40 + ["d"] * 6 + ["zz", "e"]
PLACES_MADE = ["c", "c", "d", "e", "f", "g_1", "H", "n0", "n1", "n50", "x" * 48]
NO_NAMES = ["9c", "", "a b", "a-b", "_a", "\u00e9", "x" * 49, "c/d", "$c"]


class Inputs(Pieces):
    def __init__(self, rng):
        super().__init__(rng)
        # Pages that another one follows, each with its state and what was asked for: of find its filter and its limit, of
        # updateMany its filter and its update.
        self.pages = {"find": [], "updateMany": []}
        self.asked = None
        self.places = PLACES_ASKED

    # ---- commands ----

    def command(self, parts, options):
        if options:
            self.rng.shuffle(options)
            parts.append('"options":{%s}' % ",".join(options))
        self.rng.shuffle(parts)
        return "{" + ",".join(parts) + "}"

    def told(self, command, other):
        """The state of a page that another one told, if there is one, and what that one was asked for; or `other`."""
        pick, pages = self.rng.random(), self.pages[command]
        if pages and pick < 0.5:
            return self.rng.choice(pages[-3:] if pick < 0.45 else pages)
        return self.some_state() if pick > 0.8 else None, *other

    def some_state(self):
        return self.state([page[0] for pages in self.pages.values() for page in pages])

    def insert_one(self):
        if self.rng.random() < 0.006:
            return '{"document":%s}' % self.limits()
        return '{"document":%s}' % self.document()

    def insert_many(self):
        """Documents of which some have one id; or as many as there may be, and one more; or something else."""
        pick = self.rng.random()
        count = self.rng.choice([1, 2, 3, 5, 9]) if pick < 0.9 else self.rng.choice([20, 99, 100, 101, 101])
        documents = [self.document(0.95) for _ in range(count)]
        if count > 9 and pick > 0.92:
            documents = [self.rng.choice(['{"_id":%d,"k":1}' % self.number(), '{"k":2}', "{}"]) for _ in range(count)]
        if pick < 0.06:
            documents[self.rng.randrange(count)] = self.rng.choice(['{"_id":[1]}', '{"_id":""}', '{"a b":1}', '{"":1}',
                                                                    self.limits(), self.rng.choice(UNFIT)])
        if self.rng.random() < 0.02:
            documents[self.rng.randrange(count)] = self.rng.choice(["1", "[]", "null", '{"$date":1}'])
        listed = "[%s]" % ",".join(documents) if self.rng.random() < 0.98 else self.rng.choice(["[]", "{}", "1", '{"$date":1}'])
        options = self.often(0.5, '"ordered":' + self.rng.choice(["true", "false"])) + self.often(0.02, '"ordered":null')
        return self.command(['"documents":' + listed], options)

    def page(self):
        """A page of a listing: its first one, one that another one tells of, or one of a state from elsewhere."""
        state, wanted, limit = self.told("find", (self.loose(), self.limit()))
        self.asked = "find", wanted, limit
        parts = ['"filter":' + wanted] if wanted else []
        parts += self.often(0.3, '"projection":' + self.projection()) + self.often(0.05, '"sort":{}')
        options = ['"limit":' + limit] if limit else []
        options += ['"pageState":' + quoted(state)] if state is not None else self.often(0.1, '"pageState":null')
        return self.command(parts, options + self.often(0.1, '"skip":0'))

    def sorted(self):
        wanted = self.loose()
        parts = ['"filter":' + wanted] if wanted else []
        parts += ['"sort":' + self.sort()] + self.often(0.4, '"projection":' + self.projection())
        options = self.often(0.3, '"limit":' + self.bound(20)) + self.often(0.4, '"skip":' + self.bound(480))
        return self.command(parts, options + self.often(0.1, '"pageState":null'))

    def any_search(self):
        """Every member and every option by itself, so that more than one may be wrong."""
        wrong = self.rng.random() < 0.2
        parts = self.often(0.5, '"filter":' + self.filter()) + self.often(0.5, '"projection":' + self.projection())
        parts += self.often(0.5, '"sort":' + self.sort()) + self.often(0.1 * wrong, '"update":{}')
        options = self.often(0.3, '"limit":' + self.bound(20)) + self.often(0.3, '"skip":' + self.bound(480))
        options += self.often(0.3, '"pageState":' + (self.value(0) if wrong else quoted(self.some_state())))
        return self.command(parts, options + self.often(0.3 * wrong, self.rng.choice(['"x":1', '"upsert":true', '"Limit":1'])))

    def crowded(self):
        """A filter that many documents match, close together or far apart; or a few; or none at all."""
        number = self.rng.randint(0, 150)
        return self.rng.choice([
            self.loose(), '{"k":%d}' % self.rng.randint(0, 9), '{"k":{"$lt":%d}}' % self.rng.randint(0, 9),
            '{"n":{"$gte":%d}}' % self.rng.randint(0, 40), '{"_id":{"$gt":%d}}' % number, '{"_id":{"$lt":"d%d"}}' % number,
            '{"tags":%d}' % self.rng.randint(0, 3), '{"tags":{"$size":%d}}' % self.rng.randint(0, 4), '{"b":true}',
            '{"$or":[{"k":%d},{"_id":%d}]}' % (self.rng.randint(0, 9), number), '{"t.u":{"$ne":"x"}}'])

    def flags(self, command):
        """The options of a change of one document, or of many."""
        options = self.often(0.6, '"upsert":' + self.rng.choice(["true", "true", "true", "true", "false"]))
        if "returnDocument" in OPTIONS[command]:
            options += self.often(0.6, '"returnDocument":"%s"' % self.rng.choice(["before", "after", "after"]))
        wrong = ['"limit":1', '"skip":0', '"upsert":1', '"upsert":null', '"returnDocument":"After"', '"returnDocument":true',
                 '"pageState":1', '"ordered":true']
        return options + self.often(0.02, self.rng.choice(wrong))

    def wanted_one(self):
        """A filter for the change of one document, mostly one that few documents match; and the id that it asks for, if any."""
        pick = self.rng.random()
        if pick < 0.35:
            own = self.own_id() if pick < 0.25 else '"u%d"' % self.rng.randint(0, 300)
            forms = ['{"_id":%s}', '{"_id":%s}', '{"_id":{"$eq":%s}}', '{"$and":[{"k":1},{"_id":%s}]}', '{"_id":%s,"zz.y":1}']
            return self.rng.choice(forms) % own, own
        return (self.seed() if pick < 0.75 else self.filter() if pick < 0.9 else self.crowded() or "{}"), None

    def change_one(self, command):
        wanted, own = self.wanted_one()
        parts = self.often(0.9, '"filter":' + wanted) + self.often(0.3, '"sort":' + self.sort())
        if "update" in ROWS[command]:
            parts += self.often(0.99, '"update":' + (self.update() if self.rng.random() < 0.6 else self.mild()))
        if "replacement" in ROWS[command]:
            parts += self.often(0.99, '"replacement":' + self.replacement(own))
        if "projection" in ROWS[command]:
            parts += self.often(0.4, '"projection":' + self.projection())
        return self.command(parts, self.flags(command) if command in OPTIONS else [])

    def update_many(self):
        pick = self.rng.random()
        update = self.mild() if pick < 0.7 else self.update()
        wanted = self.crowded() if self.rng.random() < 0.8 else self.seed()
        state, wanted, update = self.told("updateMany", (wanted, update))
        self.asked = "updateMany", wanted, update
        options = ['"pageState":' + quoted(state)] if state is not None else self.often(0.1, '"pageState":null')
        options += self.flags("updateMany") if self.rng.random() < 0.3 else []
        parts = ['"update":' + update] + (['"filter":' + wanted] if wanted else [])
        return self.command(parts + self.often(0.02, '"projection":{}'), options)

    def delete_many(self):
        wanted = self.crowded() if self.rng.random() < 0.9 else self.filter()
        return self.command(['"filter":' + wanted] if wanted else [], [])

    def on_collections(self, command):
        if command == "findCollections":
            return self.rng.choice(["{}"] * 20 + ['{"name":"c"}', '{"name":"9c"}', "[]", '{"options":{}}'])
        name = self.rng.choice(PLACES_MADE + ["n%d" % self.rng.randint(0, 120)] * 3)
        if self.rng.random() < 0.06:
            name = self.rng.choice(NO_NAMES)
        return self.command(self.often(0.98, '"name":' + quoted(name) if self.rng.random() < 0.98 else '"name":' + self.value(1)),
                            self.often(0.01, '"x":1'))

    def plain_search(self, command):
        parts = ['"filter":' + self.filter()]
        if command in ("findOne", "deleteOne"):
            parts += self.often(0.5, '"sort":' + self.sort())
        if command == "findOne":
            parts += self.often(0.5, '"projection":' + self.projection())
        return "{" + ",".join(parts) + "}"

    def right(self, command):
        """The value of a command, mostly a right one."""
        if command == "find":
            return self.rng.choice([self.page, self.page, self.page, self.sorted, self.sorted, self.any_search])()
        if command == "updateOne" or command.startswith("findOneAnd"):
            return self.change_one(command)
        if command in ON_COLLECTIONS:
            return self.on_collections(command)
        makes = {"insertOne": self.insert_one, "insertMany": self.insert_many, "updateMany": self.update_many,
                 "deleteMany": self.delete_many}
        return makes[command]() if command in makes else self.plain_search(command)

    def wanted(self, command):
        """The value of a command; now and then another one, or one with members that it may not have."""
        pick = self.rng.random()
        if pick < 0.02:
            return self.value(1)
        if pick < 0.04 and command not in ON_COLLECTIONS:
            return "{}"
        text = self.right(command)
        if pick < 0.15 and text.startswith("{"):
            extra = self.rng.choice(['"options":{}', '"x":1', '"sort":{}', '"options":1', '"filter":{}', '"update":{}'])
            text = self.rng.choice([text[:-1] + "," * (text != "{}") + extra + "}", "{" + extra + "," * (text != "{}") + text[1:]])
        return text

    # ---- lines ----

    def body(self, command):
        pick = self.rng.random()
        if pick < 0.02:
            return self.value(2)
        if pick < 0.04:
            command = self.rng.choice(["explain", "insertone", "Find", "findMany", "dropCollection"])
        text = "{" + self.blank() + '"' + command + '":' + self.wanted(command) + self.blank() + "}"
        if pick > 0.95 and len(text) > 1:
            cut = self.rng.randrange(len(text))
            text = text[:cut] + self.rng.choice(["", text[cut + 1:], "," + text[cut:], "\x00" + text[cut:], " "])
        return text

    def place(self, command):
        """The path of a request, mostly one of its level."""
        pick = self.rng.random()
        if pick < 0.05:
            return self.rng.choice(["/v1/ks/zz", "/v1/ks/9c", "/v1/ot/c", "/v1/ot", "/v1/ks", "/v1/ks/c"])
        return "/v1/ks" if command in ON_COLLECTIONS else "/v1/ks/" + self.rng.choice(self.places)

    def line(self, weights):
        self.asked = None
        command = self.rng.choices(list(weights), weights.values())[0]
        line = (self.place(command) + " " + self.body(command)).replace("\n", " ").encode()
        if self.rng.random() < 0.01:
            line += self.rng.choice([b"\xff", b"\xe2\x82", b"\xed\xa0\x80", b"\xf4\x90\x80\x80"])
        return line

    def served(self, serve, line):
        """A line that was served; the page that another one follows is kept, and so are ids that were generated."""
        reply = serve(line)
        before, found, state = reply.rpartition('"nextPageState":"')
        if self.asked and found:
            command, *rest = self.asked
            self.pages[command].append((state.split('"')[0], *rest))
        self.generated += re.findall(FORM, reply) if '"insertedIds"' in reply or '"upsertedId"' in reply else []
        return line

    def member_of_crowd(self):
        number = self.rng.randint(0, 150)
        wanted = self.rng.choice(["%d", "%d", '"d%d"', '"d%d"', "-%d.5", '{"$date":%d}']) % number
        n = self.rng.randint(0, 40) if self.rng.random() < 0.98 else self.rng.choice(['"x"', "null", "[1]", "99999999999999999999"])
        tags = [str(self.rng.randint(0, 3)) for _ in range(self.rng.choice([0, 1, 2, 3]))]
        tags = "[%s]" % ",".join(tags) if self.rng.random() < 0.99 else self.rng.choice(["[%s]" % ",".join(["0"] * 999), '"t"'])
        parts = ['"k":%d' % self.rng.randint(0, 9)] + self.often(0.9, '"n":%s' % n) + self.often(0.8, '"tags":%s' % tags)
        parts += self.often(0.3, '"a":%s' % self.plain(1)) + self.often(0.3, '"b":true') + self.often(0.2, '"t":{}')
        parts += ['"_id":%s' % wanted] * (self.rng.random() < 0.97)
        return '{"insertOne":{"document":{%s}}}' % ",".join(parts)

    def crowd(self, serve, count):
        """Many documents that are alike."""
        place = self.rng.choices(["c", "d"], [9, 1])[0]
        return [self.served(serve, ("/v1/ks/%s %s" % (place, self.member_of_crowd())).encode()) for _ in range(count)]

    def many_places(self, serve):
        """Collections that are made, as many as there may be, or almost; or a few."""
        count = self.rng.choice([3, 20, 96, 99, 110])
        return [self.served(serve, b'/v1/ks {"createCollection":{"name":"n%d"}}' % i) for i in range(count)]

    # ---- whole inputs ----

    def requests(self, serve, most):
        """At most so many requests of all commands, served one behind the other: of one kind, with what it begins with."""
        count = self.rng.randint(1, most)
        kind = self.rng.choice(KINDS)
        self.places = PLACES_MADE if kind == "collections" else PLACES_ASKED
        lines = self.crowd(serve, self.rng.choice([70, 150, 400])) if kind == "changes" else []
        lines += self.many_places(serve) if kind == "collections" else []
        for i in range(count):
            weights = WEIGHTS["filling" if kind in ("searches", "ones") and i < count // 4 else kind]
            lines.append(self.served(serve, self.line(weights)))
            if kind == "changes" and self.rng.random() < 0.1:
                lines += self.crowd(serve, self.rng.choice([1, 1, 2, 30]))
        return lines

    def whole(self):
        """The requests, with lines between them that are none."""
        service = model.Service(["c", "d"])
        lines = self.requests(lambda line: service.reply(*model.request_of(line)), 900)
        for _ in range(self.rng.randint(0, 4)):
            lines.insert(self.rng.randrange(len(lines) + 1), self.rng.choice([b"", b"\r"]))
        if self.rng.random() < 0.3:
            wrong = [b"hello", b"/v1/ks/c", b"/v1//c {}", b"/v1/ks/c/d {}", b" ", b"/v2/ks/c {}", b"/v1/ks/\x80 {}", b"/v1/"]
            lines.insert(self.rng.randrange(len(lines) + 1), self.rng.choice(wrong))
        return b"\n".join(lines) + self.rng.choice([b"", b"\n", b"\r\n"])

    def many_searches(self, count):
        """A few searches of many documents."""
        all_of, few_of = '"filter":{"n":{"$exists":true}}', '"filter":{"_id":{"$lt":9999}}'
        state = views.print_state(20, Number(self.rng.randrange(10_000) * 10 ** PLACES))
        lines = []
        for _ in range(count):
            wanted = self.rng.choice([all_of, all_of, few_of])
            keys = self.rng.choice(['"n":1', '"n":-1', '"t":1,"n":-1', '"t":-1', '"_id":-1'])
            options = '"options":{"skip":%d,"limit":%d}' % (self.rng.choice([0, 7, 480]), self.rng.choice([0, 3, 25]))
            lines.append(self.rng.choice([
                '{"find":{%s,"sort":{%s},%s}}' % (wanted, keys, options),
                '{"find":{%s,"sort":{%s},"projection":{"t":1}}}' % (wanted, keys),
                '{"findOne":{%s,"sort":{%s}}}' % (wanted, keys),
                '{"updateOne":{%s,"sort":{%s},"update":{"$inc":{"n":1}}}}' % (wanted, keys),
                '{"deleteOne":{"filter":{"_id":{"$lt":0}},"sort":{%s}}}' % keys,
                '{"findOneAndUpdate":{%s,"sort":{%s},"update":{"$inc":{"n":1}},"projection":{"t":1}}}' % (wanted, keys),
                '{"findOneAndReplace":{%s,"sort":{%s},"replacement":{"n":1},"options":{"returnDocument":"after"}}}' % (wanted, keys),
                '{"findOneAndDelete":{"filter":{"_id":{"$gt":9990},"m":{"$exists":true}},"sort":{%s}}}' % keys,
                '{"updateMany":{%s,"update":{"$inc":{"n":1}},"options":{"pageState":"%s"}}}' % (wanted, state),
                '{"updateMany":{"filter":{"_id":{"$in":%s}},"update":{"$set":{"t":1}}}}' % self.rng.sample(range(10_000), 22),
                '{"deleteMany":{"filter":{"_id":{"$in":%s}}}}' % self.rng.sample(range(10_000, 10_030), 25),
                '{"find":{%s,"options":{"pageState":"%s"}}}' % (wanted, state),
                '{"countDocuments":{%s}}' % wanted]))
        return lines

    def many(self):
        """As many documents as can be sorted, and searches of them; one more, and the like again."""
        kinds = ["%d", '"t%d"', "[%d]", '{"$date":%d}', "true", "null", "-%d.5"]
        ids = list(range(10_030))
        self.rng.shuffle(ids)
        lines = []
        for number in ids:
            kind = self.rng.choice(kinds)
            value = kind % self.rng.randint(0, 99) if "%" in kind else kind
            counted = "n" if number < 10_000 else "m"
            lines.append('{"insertOne":{"document":{"_id":%d,"%s":%d,"t":%s}}}' % (number, counted, number % 7, value))
        lines += self.many_searches(8)
        lines.append('{"insertOne":{"document":{"_id":"one more","n":3}}}')
        lines += self.many_searches(5)
        return "".join("/v1/ks/c %s\n" % line for line in lines).encode()
