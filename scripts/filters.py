"""The filters of the plain model: which documents match, and what an upsert takes from a filter."""
from values import ABSENT, Fault, Members, kind, ordered, path_parts, same, value_at, whole

RANGES = {"$gt": lambda a, b: a > b, "$gte": lambda a, b: a >= b, "$lt": lambda a, b: a < b, "$lte": lambda a, b: a <= b}
OPERATORS = ["$eq", "$ne", *RANGES, "$in", "$nin", "$exists", "$all", "$size"]


def invalid(path):
    return Fault("INVALID_FILTER_EXPRESSION", f"Filter is invalid at {path}")


def read_filter(value, place=""):
    """A predicate on documents."""
    if not isinstance(value, Members):
        raise invalid(place)
    tests = [read_member(name, inner) for name, inner in value.pairs]
    return lambda document: all(test(document) for test in tests)


def read_member(name, value):
    if name in ("$and", "$or"):
        if not isinstance(value, list):
            raise invalid(name)
        tests = [read_filter(inner, name) for inner in value]
        over = all if name == "$and" else any
        return lambda document: over(test(document) for test in tests)
    if name == "$not":
        test = read_filter(value, name)
        return lambda document: not test(document)
    if name.startswith("$"):
        raise Fault("UNSUPPORTED_FILTER_OPERATION", f"Filter operator {name} is not supported")
    parts = path_parts(name)
    if parts is None:
        raise invalid(name)
    if is_of_operators(value):
        tests = [read_operator(name, operator, operand) for operator, operand in value.pairs]
    else:
        tests = [read_operator(name, "$eq", value)]
    return lambda document: all(test(value_at(document, parts)) for test in tests)


def is_of_operators(value):
    return isinstance(value, Members) and value.pairs != [] and value.pairs[0][0].startswith("$")


def equals(found, operand):
    if found is ABSENT:
        return False
    return same(found, operand) or (isinstance(found, list) and any(same(item, operand) for item in found))


def read_operator(path, operator, operand):
    if not operator.startswith("$"):
        raise invalid(path)
    if operator not in OPERATORS:
        raise Fault("UNSUPPORTED_FILTER_OPERATION", f"Filter operator {operator} is not supported")
    if operator in ("$eq", "$ne"):
        return lambda found: equals(found, operand) == (operator == "$eq")
    if operator in RANGES:
        if kind(operand) not in ("number", "text", "date"):
            raise invalid(path)
        return lambda found: (found is not ABSENT and kind(found) == kind(operand)
                              and RANGES[operator](ordered(found), ordered(operand)))
    if operator in ("$in", "$nin", "$all"):
        if not isinstance(operand, list):
            raise invalid(path)
        if len(operand) > 100:
            raise Fault("INVALID_FILTER_EXPRESSION", f"Filter has {len(operand)} operands, at most 100")
        if operator == "$all":
            return lambda found: all(equals(found, item) for item in operand)
        return lambda found: any(equals(found, item) for item in operand) == (operator == "$in")
    if operator == "$exists":
        if not isinstance(operand, bool):
            raise invalid(path)
        return lambda found: (found is not ABSENT) == operand
    length = whole(operand, 0, 1_000_000)
    if length is None:
        raise invalid(path)
    return lambda found: isinstance(found, list) and len(found) == length


def equalities(value):
    """The paths and operands of the `$eq` conditions that all have to hold, in written order."""
    for name, inner in value.pairs:
        if name == "$and":
            for one in inner:
                yield from equalities(one)
        elif name.startswith("$"):
            continue
        elif is_of_operators(inner):
            yield from ((name, operand) for operator, operand in inner.pairs if operator == "$eq")
        else:
            yield name, inner
