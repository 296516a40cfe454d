"""A plain model of the service, written from docs/API.md alone: lines in, replies, status and note out.

It is slow and obvious on purpose, shares nothing with the program, and is what `compare-random` holds the program to.
Values are in values.py, filters in filters.py, updates and replacements in updates.py, projections, sorts and page states
in views.py, commands and their members in commands.py, generated ids in generated.py.
"""
import updates
import views
from commands import ON_COLLECTIONS, ROWS, judge_bounds, judge_members, member, option
from filters import equalities, read_filter
from generated import Told
from values import ABSENT, COLLECTION, Fault, Members, id_key, judge_document, judge_names, quoted, read, same, text_of

PAGE = 20
MOST_COUNTED = 1_000
MOST_GIVEN = 2 ** 63 - 1
MOST_SORTED = 10_000
MOST_COLLECTIONS = 100
DOUBLE = "DOCUMENT_ALREADY_EXISTS"


# ---- what a request asks for ----

class Search:
    """What a command looks for, what it does there, and what it shows; read in the order in which it is judged."""

    def __init__(self, wanted):
        asked = member(wanted, "filter")
        self.matches = read_filter(asked)
        self.equalities = list(equalities(asked))
        self.clauses = updates.read_updates(member(wanted, "update"))
        self.rules = views.read_projection(member(wanted, "projection"))
        self.keys = views.read_sort(member(wanted, "sort"))
        self.limit, self.skip = option(wanted, "limit", 0), option(wanted, "skip", 0)
        state = option(wanted, "pageState", None)
        self.given, self.after = (0, ABSENT) if state is None else views.read_state(state)
        self.replacement = wanted.get("replacement")
        if self.replacement is not ABSENT:
            judge_names(self.replacement)
        self.inserts = option(wanted, "upsert", False)
        self.shows_new = option(wanted, "returnDocument", "before") == "after"

    def found(self, rows):
        """The documents that match, in order."""
        documents = [rows[key][1] for key in sorted(rows) if self.after is ABSENT or key > id_key(self.after)]
        documents = [document for document in documents if self.matches(document)]
        if self.keys and len(documents) > MOST_SORTED:
            raise Fault("DATASET_TOO_BIG", "More than 10000 documents to sort")
        return views.sort(self.keys, documents)

    def changed(self, document, moment):
        """What is to stand in the place of a document."""
        if self.replacement is not ABSENT:
            return updates.replaced(self.replacement, document)
        return updates.apply_updates(self.clauses, document, moment)

    def inserted(self, generated, moment):
        """The document that is inserted where nothing matches."""
        if self.replacement is not ABSENT:
            return updates.inserted_by_replacement(self.equalities, self.replacement, generated)
        return updates.inserted_by_updates(self.equalities, self.clauses, moment, generated)

    def view(self, document):
        return "null" if document is None else text_of(views.view(self.rules, document))


class Outcome:
    """What became of one document: as it was, as it is, whether it differs, and the id of one that was inserted."""

    def __init__(self, old=None, new=None, differs=False, inserted=ABSENT):
        self.old, self.new, self.differs, self.inserted = old, new, differs, inserted


def documents_of(wanted):
    """The documents of an insertion, and whether the first one whose id is there ends it."""
    one = wanted.get("document")
    return ([one], True) if one is not ABSENT else (wanted.get("documents"), option(wanted, "ordered", False))


def refusal(fault):
    errors = ['{"message":%s,"errorCode":"%s"}' % (quoted(one.message), one.code) for one in fault.before + [fault]]
    return "{%s}" % ",".join([fault.status] * (fault.status != "") + ['"errors":[%s]' % ",".join(errors)])


# ---- the service ----

class Service:
    """The living collections of a keyspace, the last number given, the time, and the ids that are generated."""

    def __init__(self, collections, keyspace="ks", last=0, moment=0, ids=None):
        self.rows = {name: {} for name in collections}
        self.keyspace = keyspace
        self.last = last
        self.moment = moment
        self.ids = ids or Told()
        self.told = ""

    def reply(self, path, body, told=""):
        """The reply to a request; what the program replied, if it is known, tells the ids that it generated."""
        self.told = told
        try:
            return self.answer(path, body)
        except Fault as fault:
            return refusal(fault)

    def answer(self, path, body):
        value = read(body)
        names = value.names() if isinstance(value, Members) else []
        if len(names) != 1 or names[0] not in ROWS or (names[0] in ON_COLLECTIONS) != (len(path) == 1):
            raise Fault("NO_COMMAND_MATCHED", "No command matched")
        name, wanted = value.pairs[0]
        if path[0] != self.keyspace:
            raise Fault("KEYSPACE_NOT_EXIST", f"Keyspace {path[0]} does not exist")
        collection = self.collection_of(name, wanted, path)
        judge_members(name, wanted)
        judge_bounds(wanted)
        if name in ON_COLLECTIONS:
            return getattr(self, name)(collection)
        search = Search(wanted)
        if name in ("insertOne", "insertMany"):
            return self.insert_all(collection, *documents_of(wanted))
        generated = self.ids.draw() if search.inserts else None
        return getattr(self, name)(self.rows_of(collection), search, generated)

    def collection_of(self, name, wanted, path):
        """The collection that is named by the path, or by a command on collections, if one is."""
        named = "name" in ROWS[name] and isinstance(wanted, Members) and isinstance(wanted.get("name"), str)
        collection = path[1] if len(path) == 2 else wanted.get("name") if named else None
        if collection is not None and not COLLECTION.match(collection):
            raise Fault("INVALID_COLLECTION_NAME", f"Collection name is invalid: {collection}")
        return collection

    def rows_of(self, collection):
        if collection not in self.rows:
            raise Fault("COLLECTION_NOT_EXIST", f"Collection {collection} does not exist")
        return self.rows[collection]

    # ---- writes ----

    def next_number(self):
        if self.last + 1 >= 2 ** 63 - 1:
            raise Fault("VERSIONS_SPENT", "No version numbers are left")
        return self.last + 1

    def write(self, rows, document):
        self.last = self.next_number()
        rows[id_key(document.get("_id"))] = self.last, document

    def insert(self, rows, document):
        """Inserts a document, and tells its id."""
        number, own = self.next_number(), document.get("_id")
        there = rows.get(id_key(own))
        if there:
            raise Fault(DOUBLE, f"Document {text_of(own)} already exists at version {there[0]}")
        rows[id_key(own)] = number, document
        self.last = number
        return text_of(own)

    def change(self, rows, search, document):
        """Changes a document: what it is then, and whether that differs."""
        new = search.changed(document, self.moment)
        differs = not same(new, document)
        if differs:
            self.write(rows, new)
        return new, differs

    def remove(self, rows, document):
        self.last = self.next_number()
        del rows[id_key(document.get("_id"))]

    def put(self, rows, search, generated):
        """Inserts a document since none matched, if one is to be."""
        if not search.inserts:
            return Outcome()
        settled = self.ids.settle(generated, self.told, 0) if self.is_generated(search) else None
        new = search.inserted(settled, self.moment)
        self.insert(rows, new)
        return Outcome(new=new, inserted=new.get("_id"))

    def is_generated(self, search):
        own = ABSENT if search.replacement is ABSENT else search.replacement.get("_id")
        return own is ABSENT and updates.id_of_equalities(search.equalities) is ABSENT

    # ---- insertions ----

    def insert_all(self, collection, documents, is_ordered):
        for document in documents:
            judge_document(document)
        drawn = [self.ids.draw() if document.get("_id") is ABSENT else None for document in documents]
        ids, faults = [], []
        for document, generated in zip(documents, drawn):
            try:
                self.next_number()
                rows = self.rows_of(collection)
                if document.get("_id") is ABSENT:
                    document = updates.with_id(document, self.ids.settle(generated, self.told, len(ids)))
                ids.append(self.insert(rows, document))
            except Fault as fault:
                faults.append(fault)
                if is_ordered or fault.code != DOUBLE:
                    break
        status = '"status":{"insertedIds":[%s]}' % ",".join(ids)
        if not faults:
            return "{%s}" % status
        faults[-1].before = faults[:-1]
        faults[-1].status = status if ids else ""
        raise faults[-1]

    def findOne(self, rows, search, _):
        found = search.found(rows)
        return '{"data":{"document":%s}}' % search.view(found[0] if found else None)

    def find(self, rows, search, _):
        found = search.found(rows)[search.skip:]
        room = min(PAGE, max(search.limit - search.given, 0)) if search.limit else PAGE
        page, state = found[:room], "null"
        given = search.given + len(page)
        if len(page) == PAGE and not search.keys and (search.limit == 0 or given < search.limit):
            state = quoted(views.print_state(min(given, MOST_GIVEN), page[-1].get("_id")))
        return '{"data":{"documents":[%s],"nextPageState":%s}}' % (",".join(map(search.view, page)), state)

    def countDocuments(self, rows, search, _):
        found = search.found(rows)
        more = ',"moreData":true' if len(found) > MOST_COUNTED else ""
        return '{"status":{"count":%d%s}}' % (min(len(found), MOST_COUNTED), more)

    # ---- changes of one document ----

    def change_one(self, rows, search, generated):
        found = search.found(rows)
        if not found:
            return self.put(rows, search, generated)
        new, differs = self.change(rows, search, found[0])
        return Outcome(found[0], new, differs)

    def remove_one(self, rows, search):
        found = search.found(rows)
        if not found:
            return Outcome()
        self.remove(rows, found[0])
        return Outcome(old=found[0], differs=True)

    def updateOne(self, rows, search, generated):
        return "{%s}" % updated_outcome(self.change_one(rows, search, generated))

    def findOneAndUpdate(self, rows, search, generated):
        outcome = self.change_one(rows, search, generated)
        shown = search.view(outcome.new if search.shows_new else outcome.old)
        return '{"data":{"document":%s},%s}' % (shown, updated_outcome(outcome))

    findOneAndReplace = findOneAndUpdate

    def deleteOne(self, rows, search, _):
        return "{%s}" % deleted_status(self.remove_one(rows, search).differs)

    def findOneAndDelete(self, rows, search, _):
        outcome = self.remove_one(rows, search)
        return '{"data":{"document":%s},%s}' % (search.view(outcome.old), deleted_status(outcome.differs))

    # ---- changes of many documents ----

    def updateMany(self, rows, search, generated):
        found = search.found(rows)
        if not found and search.after is ABSENT:
            return "{%s}" % updated_outcome(self.put(rows, search, generated))
        taken, changed = take_many(found, lambda document: self.change(rows, search, document)[1], updated_status)
        more = ""
        if len(found) > taken:
            given = min(search.given + taken, MOST_GIVEN)
            more = ',"moreData":true,"nextPageState":' + quoted(views.print_state(given, found[taken - 1].get("_id")))
        return "{%s}" % updated_status(taken, changed, more)

    def deleteMany(self, rows, search, _):
        found = search.found(rows)
        taken, _ = take_many(found, lambda document: self.remove(rows, document) or True,
                             lambda taken, changed: deleted_status(changed))
        return "{%s}" % deleted_status(taken, ',"moreData":true' if len(found) > taken else "")

    # ---- collections ----

    def createCollection(self, name):
        if name not in self.rows:
            if len(self.rows) >= MOST_COLLECTIONS:
                raise Fault("TOO_MANY_COLLECTIONS", "At most 100 collections")
            self.rows[name] = {}
        return '{"status":{"ok":1}}'

    def deleteCollection(self, name):
        self.rows.pop(name, None)
        return '{"status":{"ok":1}}'

    def findCollections(self, _):
        return '{"status":{"collections":[%s]}}' % ",".join(map(quoted, self.rows))


def updated_status(taken, changed, more=""):
    return '"status":{"matchedCount":%d,"modifiedCount":%d%s}' % (taken, changed, more)


def updated_outcome(outcome):
    inserted = "" if outcome.inserted is ABSENT else ',"upsertedId":' + text_of(outcome.inserted)
    return updated_status(outcome.old is not None, outcome.differs, inserted)


def deleted_status(deleted, more=""):
    return '"status":{"deletedCount":%d%s}' % (deleted, more)


def take_many(found, take, status):
    """(how many of the first 20 were taken, how many of these changed). A fault tells of the writes before it."""
    taken = changed = 0
    for document in found[:PAGE]:
        try:
            changed += take(document)
        except Fault as fault:
            fault.status = status(taken, changed) if changed else ""
            raise
        taken += 1
    return taken, changed


# ---- lines ----

LONGEST = 20_000_000


def request_of(line):
    """(path, body) of a line, or None."""
    place, space, body = line.partition(b" ")
    if not space or len(body) > LONGEST or not place.startswith(b"/v1/"):
        return None
    parts = place[4:].split(b"/")
    if len(parts) > 2 or any(not part or any(not 0x21 <= byte <= 0x7E for byte in part) for part in parts):
        return None
    return [part.decode() for part in parts], body


def run(service, data, told=()):
    """(output, status, note) of the whole input; `told` are the replies of the program, as far as they are known."""
    out = []
    told = list(told)
    lines = data.split(b"\n")
    for number, line in enumerate(lines, 1):
        if line in (b"", b"\r"):
            continue
        request = request_of(line)
        if request is None:
            return "".join(out), 6, f"line {number} is not a request\n"
        out.append(service.reply(*request, *told[len(out):len(out) + 1]) + "\n")
    return "".join(out), 0, ""
