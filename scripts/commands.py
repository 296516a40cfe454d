"""The commands of the plain model: their members and options, and the refusals of these."""
from values import ABSENT, Fault, Members, kind, whole


def is_object(value):
    return kind(value) == "object"


def are_objects(value):
    return kind(value) == "list" and value != [] and all(map(is_object, value))


def is_text(value):
    return kind(value) == "text"


def is_bound(value):
    return whole(value, 0, 2 ** 31 - 1) is not None


def is_state(value):
    return value is None or is_text(value)


def is_flag(value):
    return kind(value) == "bool"


def is_side(value):
    return is_text(value) and value in ("before", "after")


# The members of a command in their order, each with what it has to be and whether it has to be there.
FILTER = {"filter": (is_object, False)}
SORT = {"sort": (is_object, False)}
PROJECTION = {"projection": (is_object, False)}
UPDATE = {"update": (is_object, True)}
NAME = {"name": (is_text, True)}
ROWS = {"insertOne": {"document": (is_object, True)},
        "insertMany": {"documents": (are_objects, True)},
        "findOne": {**FILTER, **SORT, **PROJECTION},
        "find": {**FILTER, **SORT, **PROJECTION},
        "countDocuments": {**FILTER},
        "updateOne": {**FILTER, **UPDATE, **SORT},
        "updateMany": {**FILTER, **UPDATE},
        "deleteOne": {**FILTER, **SORT},
        "deleteMany": {**FILTER},
        "findOneAndUpdate": {**FILTER, **UPDATE, **SORT, **PROJECTION},
        "findOneAndReplace": {**FILTER, "replacement": (is_object, True), **SORT, **PROJECTION},
        "findOneAndDelete": {**FILTER, **SORT, **PROJECTION},
        "createCollection": {**NAME},
        "findCollections": {},
        "deleteCollection": {**NAME}}

# The options of a command, each with what it has to be.
OPTIONS = {"insertMany": {"ordered": is_flag},
           "find": {"limit": is_bound, "skip": is_bound, "pageState": is_state},
           "updateOne": {"upsert": is_flag},
           "updateMany": {"upsert": is_flag, "pageState": is_state},
           "findOneAndUpdate": {"upsert": is_flag, "returnDocument": is_side},
           "findOneAndReplace": {"upsert": is_flag, "returnDocument": is_side}}

# The commands that stand at the path of a keyspace; all others stand at that of a collection.
ON_COLLECTIONS = ("createCollection", "findCollections", "deleteCollection")


def refuse_field(field):
    raise Fault("COMMAND_FIELD_INVALID", f"Command field invalid: {field}")


def member(value, name):
    """The member of this name, or an empty object."""
    found = value.get(name)
    return Members([]) if found is ABSENT else found


def option(wanted, name, otherwise):
    """An option of a command, a whole number as such, or else this."""
    found = member(wanted, "options").get(name)
    return otherwise if found is ABSENT else whole(found, 0, 2 ** 31 - 1) if kind(found) == "number" else found


def judge_members(name, wanted):
    """Refuses a command of which the members aren't those that it has."""
    if not isinstance(wanted, Members):
        refuse_field(name)
    row = ROWS[name]
    for field, value in wanted.pairs:
        if field == "options" and name in OPTIONS and isinstance(value, Members):
            for inner, operand in value.pairs:
                if inner not in OPTIONS[name] or not OPTIONS[name][inner](operand):
                    refuse_field("options." + inner)
        elif field not in row or not row[field][0](value):
            refuse_field(field)
    for field, (_, required) in row.items():
        if required and wanted.get(field) is ABSENT:
            refuse_field(field)
    sorts = member(wanted, "sort").pairs != []
    if not sorts and option(wanted, "skip", 0) != 0:
        refuse_field("options.skip")
    if sorts and option(wanted, "pageState", None) is not None:
        refuse_field("options.pageState")


def judge_bounds(wanted):
    """Refuses a command that asks for too much."""
    documents = wanted.get("documents")
    counts = [("documents", 100, 0 if documents is ABSENT else len(documents)), ("skip", 480, option(wanted, "skip", 0)),
              ("sort", 8, len(member(wanted, "sort").pairs))]
    for field, bound, found in counts:
        if found > bound:
            raise Fault("COMMAND_LIMIT_VIOLATION", f"Command limit {field} is {bound}, found {found}")
