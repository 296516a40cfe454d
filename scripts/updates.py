"""The updates and replacements of the plain model: what they make of a document, and what they insert."""
import re

from values import (ABSENT, NAME, PLACES, RANGE, SCALARS, Date, Fault, Members, Number, is_id, judge_limits, kind, names_in,
                    path_parts, same, scalar_key, size, value_at, whole)
from views import I64

UPDATE_OPERATORS = ["$set", "$unset", "$inc", "$mul", "$min", "$max", "$rename", "$push", "$pop", "$addToSet",
                    "$setOnInsert", "$currentDate"]
UPDATE_PARAM = "UNSUPPORTED_UPDATE_OPERATION_PARAM"


def storable(value):
    return all(1 <= size(name) <= 100 and NAME.match(name) for name in names_in(value))


def form_of(operand, placed):
    """(values, place) of an operand of `$push` or `$addToSet`, or None where it is none."""
    if not (isinstance(operand, Members) and operand.pairs and operand.pairs[0][0].startswith("$")):
        return ([operand], None) if storable(operand) else None
    values, place = operand.get("$each"), operand.get("$position")
    known = ["$each"] + ["$position"] * placed
    if any(name not in known for name in operand.names()) or not isinstance(values, list) or not all(map(storable, values)):
        return None
    if place is ABSENT:
        return values, None
    place = whole(place, *I64)
    return None if place is None else (values, place)


def good_operand(operator, operand):
    if operator in ("$set", "$setOnInsert"):
        return storable(operand)
    if operator in ("$inc", "$mul"):
        return isinstance(operand, Number)
    if operator in ("$min", "$max"):
        return kind(operand) in SCALARS
    if operator == "$rename":
        return isinstance(operand, str) and path_parts(operand) is not None
    if operator in ("$push", "$addToSet"):
        return form_of(operand, operator == "$push") is not None
    if operator == "$pop":
        return isinstance(operand, Number) and abs(operand.units) == 10 ** PLACES
    return operand is True if operator == "$currentDate" else True


def read_updates(value):
    """The clauses of an update, in the order in which they are applied: (operator, path, operand)."""
    for name in value.names():
        if name not in UPDATE_OPERATORS:
            raise Fault("UNSUPPORTED_UPDATE_OPERATION", f"Update operator {name} is not supported")
    clauses = []
    for operator in UPDATE_OPERATORS:
        of_paths = value.get(operator)
        if of_paths is ABSENT:
            continue
        if not isinstance(of_paths, Members):
            raise Fault(UPDATE_PARAM, f"Update operand is invalid for {operator} at ")
        for path, operand in of_paths.pairs:
            if path_parts(path) is None or not good_operand(operator, operand):
                raise Fault(UPDATE_PARAM, f"Update operand is invalid for {operator} at {path}")
            clauses.append((operator, path, operand))
    paths = [path for operator, path, operand in clauses for path in [path] + [operand] * (operator == "$rename")]
    for i, path in enumerate(paths):
        for earlier in paths[:i]:
            p, q = path.split("."), earlier.split(".")
            if p[:len(q)] == q or q[:len(p)] == p:
                raise Fault(UPDATE_PARAM, f"Update paths conflict: {earlier} and {path}")
    if any(path.split(".")[0] == "_id" for path in paths):
        raise unchangeable()
    return clauses


def unchangeable():
    return Fault("UNSUPPORTED_UPDATE_FOR_DOC_ID", "Field _id is not changeable")


def wrong_target(path):
    return Fault("UNSUPPORTED_UPDATE_OPERATION_TARGET", f"Update target is of the wrong kind at {path}")


def put(value, parts, new, path):
    """The value with `new` at these parts."""
    if not parts:
        return new
    part, rest = parts[0], parts[1:]
    if isinstance(value, Members):
        old = value.get(part)
        inner = put(Members([]) if old is ABSENT else old, rest, new, path)
        if old is ABSENT:
            return Members(value.pairs + [(part, inner)])
        return Members([(name, inner if name == part else other) for name, other in value.pairs])
    if not isinstance(value, list) or not re.match(r"(0|[1-9][0-9]*)\Z", part):
        raise wrong_target(path)
    place = int(part)
    if place < len(value):
        return value[:place] + [put(value[place], rest, new, path)] + value[place + 1:]
    if place > 999:
        raise wrong_target(path)
    return value + [None] * (place - len(value)) + [put(Members([]), rest, new, path)]


def take(value, parts):
    """The value without what stands at these parts: a member is gone, an element is null."""
    part, rest = parts[0], parts[1:]
    if isinstance(value, Members):
        if rest:
            return Members([(name, take(other, rest) if name == part else other) for name, other in value.pairs])
        return Members([pair for pair in value.pairs if pair[0] != part])
    place = int(part)
    return value[:place] + [take(value[place], rest) if rest else None] + value[place + 1:]


def coefficient(units):
    """(the number without its trailing zeros, how many these are), at most 18 of them."""
    for zeros in range(PLACES, -1, -1):
        if units % 10 ** zeros == 0:
            return units // 10 ** zeros, zeros
    return units, 0


def product(a, b):
    """The product of two counts of units, or None."""
    (c, m), (d, n) = coefficient(a), coefficient(b)
    if abs(c * d) >= RANGE:
        return None
    units, rest = divmod(abs(a * b), 10 ** PLACES)
    return None if rest or units >= RANGE else units if (a < 0) == (b < 0) else -units


def put_by(operator, path, operand, found):
    """What an operator that goes by the value there puts there, or ABSENT."""
    if operator in ("$set", "$setOnInsert"):
        return operand
    if operator in ("$inc", "$mul"):
        if found is ABSENT:
            return operand if operator == "$inc" else Number(0)
        if not isinstance(found, Number):
            raise wrong_target(path)
        units = found.units + operand.units if operator == "$inc" else product(found.units, operand.units)
        if units is None or abs(units) >= RANGE:
            raise Fault("NUMBER_OUT_OF_RANGE", f"Number is out of range at {path}")
        return Number(units)
    if operator in ("$min", "$max"):
        if found is ABSENT:
            return operand
        if kind(found) not in SCALARS:
            raise wrong_target(path)
        less, more = sorted([scalar_key(found), scalar_key(operand)])
        wanted = scalar_key(operand) == (less if operator == "$min" else more) and less != more
        return operand if wanted else ABSENT
    return put_in_list(operator, path, operand, [] if found is ABSENT else found, found is ABSENT)


def put_in_list(operator, path, operand, items, is_new):
    if not isinstance(items, list):
        raise wrong_target(path)
    if operator == "$pop":
        return ABSENT if not items else items[:-1] if operand.units > 0 else items[1:]
    values, place = form_of(operand, operator == "$push")
    if operator == "$push":
        place = len(items) if place is None else min(place, len(items)) if place >= 0 else max(len(items) + place, 0)
        return items[:place] + values + items[place:]
    for value in values:
        if not any(same(value, item) for item in items):
            items = items + [value]
    return items


def apply_updates(clauses, document, moment, inserts=False):
    """The new document that the clauses make at this moment of one that is there, or of one that is to be inserted."""
    for operator, path, operand in clauses:
        parts = path_parts(path)
        found = value_at(document, parts)
        if operator == "$setOnInsert" and not inserts:
            continue
        if operator in ("$unset", "$rename", "$pop") and found is ABSENT:
            continue
        if operator == "$unset":
            document = take(document, parts)
        elif operator == "$currentDate":
            document = put(document, parts, Date(moment), path)
        elif operator == "$rename":
            document = put(take(document, parts), path_parts(operand), found, operand)
        else:
            new = put_by(operator, path, operand, found)
            document = document if new is ABSENT else put(document, parts, new, path)
    judge_limits(document)
    return document


# ---- what is inserted where nothing matches, and replacements ----

def id_of_equalities(equalities):
    """The id that the first condition on `_id` asks for, or ABSENT."""
    first = next((operand for path, operand in equalities if path == "_id"), ABSENT)
    return first if is_id(first) else ABSENT


def with_id(document, own):
    return Members([("_id", own)] + document.pairs)


def inserted_by_updates(equalities, clauses, moment, generated):
    """The document that an update inserts; `generated` is its id where the filter asks for none."""
    own = id_of_equalities(equalities)
    document = Members([("_id", generated if own is ABSENT else own)])
    for path, operand in equalities:
        parts = path_parts(path)
        if parts[0] == "_id":
            continue
        if not storable(operand):
            raise wrong_target(path)
        document = put(document, parts, operand, path)
    return apply_updates(clauses, document, moment, True)


def same_id(first, second):
    if not same(first, second):
        raise unchangeable()


def replaced(replacement, document):
    """The document that a replacement puts in the place of one."""
    own, there = replacement.get("_id"), document.get("_id")
    if own is ABSENT:
        replacement = with_id(replacement, there)
    else:
        same_id(own, there)
    judge_limits(replacement)
    return replacement


def inserted_by_replacement(equalities, replacement, generated):
    """The document that a replacement inserts."""
    own, asked = replacement.get("_id"), id_of_equalities(equalities)
    if own is ABSENT:
        replacement = with_id(replacement, generated if asked is ABSENT else asked)
    elif asked is not ABSENT:
        same_id(own, asked)
    judge_limits(replacement)
    return replacement
