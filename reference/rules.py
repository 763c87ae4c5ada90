"""The rules on what a command holds: which of its values are to be sealed, and why it is refused.

MongoDB's client-side encryption specification leaves this to a service beside the driver; docs/SCHEMAS.md says these
rules in words, and docs/ERRORS.md what refuses a command. A sealed value can only be stored whole, and compared by
equality where it is sealed deterministically: what else a command would do with one is refused.

What a key is asked for by, its need, is a pair as a marking has it: `ki` and an id, or `ka` and a name.
"""
from reference.bson import ARRAY, DOCUMENT, MAX_KEY, MIN_KEY, NULL, REGEX, STRING, UNDEFINED, is_encrypted, words_of
from reference.paths import ABOVE, BELOW, CLEAR, PROTECTED, is_positional, rule_at, standing
from reference.reasons import Reason

UNSTORABLE = (UNDEFINED, NULL, MAX_KEY, MIN_KEY)  # types that no rule allows


def only(name, kind, elements):
    """The value of the only element of this name, where it has this type; else None."""
    found = [(inner, value) for inner, other, value in elements if other == name]
    return found[0][1] if len(found) == 1 and found[0][0] == kind else None


def target_of(names, elements):
    """The text to which a pointer's names lead in a document, or None."""
    *outer, last = names
    for name in outer:
        elements = only(name, DOCUMENT, elements)
        if elements is None:
            return None
    value = only(last, STRING, elements)
    return None if value is None else words_of(value)


def is_operators(kind, value):
    """Whether a value of a filter is a document of operators, as `{$gt: 3}`."""
    return kind == DOCUMENT and bool(value) and value[0][1].startswith("$")


class Contents:
    """One walk over a command under the rules of its collection.

    `offences` are pairs of a place and a reason, in no order: the one that is told is at the first place in reading
    order, which is the order of tuples, and there the least reason. `marks` are the algorithm and the need of each
    place that has a value to be sealed.
    """

    def __init__(self, rules):
        self.rules, self.offences, self.marks = rules, [], {}

    def refuse(self, place, reason):
        """Adds an offence."""
        self.offences.append((place, reason))

    def standing(self, path):
        return standing(self.rules, path)

    # ---- stored values: a root is the elements of a stored document as a whole, or None where there is no such

    def need(self, key, root):
        """What a rule's key is asked for by, or None where its pointer leads to no text that stands in clear."""
        if isinstance(key, bytes):
            return "ki", key
        name = target_of(key, root) if root is not None and self.standing(key) == CLEAR else None
        return None if name is None else ("ka", name)

    def protected(self, path, place, kind, value, root=None):
        """A value that is to be sealed."""
        rule = rule_at(self.rules, path)
        self.marks[place] = rule.algorithm, self.need(rule.key, root)
        if kind in UNSTORABLE or kind not in rule.types:
            self.refuse(place, Reason.TYPE_NOT_ALLOWED)
        if is_encrypted(kind, value):
            self.refuse(place, Reason.ALREADY_ENCRYPTED)

    def stored(self, path, place, kind, value, root):
        """A value that is stored at a path, by a document or an operator."""
        stands = self.standing(path)
        if stands == PROTECTED:
            self.protected(path, place, kind, value, root)
            if self.marks[place][1] is None:
                self.refuse(place, Reason.POINTER_BAD)
        elif stands == ABOVE and kind == ARRAY:
            self.refuse(place, Reason.ARRAY_ON_PATH)
        elif stands == ABOVE and kind == DOCUMENT:
            self.document(path, place, value, root)

    def document(self, path, place, elements, root):
        """A document that is stored at a path."""
        for number, (kind, name, value) in enumerate(elements):
            self.stored(path + (name,), place + (number,), kind, value, root)

    def whole(self, place, elements):
        """A stored document as a whole."""
        self.document((), place, elements, elements)

    # ---- filters

    def compared(self, path, place, kind, value):
        """A value that a filter compares with the field at a path, which is protected or above such fields."""
        rule = rule_at(self.rules, path)
        if not rule:
            if kind in (DOCUMENT, ARRAY):
                self.refuse(place, Reason.PREFIX_COMPARED)
            return
        self.protected(path, place, kind, value)
        if rule.algorithm == "R":
            self.refuse(place, Reason.RANDOM_COMPARED)
        if kind == REGEX:
            self.refuse(place, Reason.OPERATOR_ON_PROTECTED)

    def filter(self, place, elements):
        """The elements of a filter: conditions on fields, and filters that are joined."""
        for number, (kind, name, value) in enumerate(elements):
            here = place + (number,)
            if name in ("$and", "$or", "$nor"):
                self.documents(here, kind, value, self.filter)
            elif name.startswith("$") and name != "$comment":
                self.refuse(here, Reason.FIELD_NOT_ALLOWED)
            elif not name.startswith("$"):
                self.condition(tuple(name.split(".")), here, kind, value)

    def condition(self, path, place, kind, value):
        """What a filter asks of the field at a path."""
        stands = self.standing(path)
        if is_positional(self.rules, path):
            self.refuse(place, Reason.POSITIONAL_ON_PATH)
        elif stands == BELOW:
            self.refuse(place, Reason.BELOW_PROTECTED)
        elif stands != CLEAR and is_operators(kind, value):
            self.operators(path, place, value)
        elif stands != CLEAR:
            self.compared(path, place, kind, value)

    def operators(self, path, place, elements):
        """Operators of a filter on the field at a path."""
        for number, (kind, name, value) in enumerate(elements):
            here = place + (number,)
            if name in ("$eq", "$ne"):
                self.compared(path, here, kind, value)
            elif name in ("$in", "$nin"):
                self.members(path, here, kind, value)
            elif name == "$not":
                self.negated(path, here, kind, value)
            elif name != "$exists":
                self.refuse(here, Reason.OPERATOR_ON_PROTECTED)

    def negated(self, path, place, kind, value):
        """What stands behind `$not`: operators, or a regular expression."""
        if is_operators(kind, value):
            self.operators(path, place, value)
        elif kind != REGEX:
            self.refuse(place, Reason.BAD_FIELD)
        elif rule_at(self.rules, path):
            self.refuse(place, Reason.OPERATOR_ON_PROTECTED)

    def members(self, path, place, kind, value):
        """What stands behind `$in` and `$nin`: an array of values."""
        rule = rule_at(self.rules, path)
        if kind != ARRAY:
            self.refuse(place, Reason.BAD_FIELD)
        if rule and rule.algorithm == "R":
            self.refuse(place, Reason.RANDOM_COMPARED)
        elif kind == ARRAY:
            for number, (inner, _, member) in enumerate(value):
                self.compared(path, place + (number,), inner, member)

    # ---- updates

    def update(self, place, elements):
        """What stands behind `u`: a document that replaces another, or operators, as `{$set: {a: 1}}`."""
        if not elements or not elements[0][1].startswith("$"):
            self.whole(place, elements)
            return
        for number, (kind, operator, value) in enumerate(elements):
            here = place + (number,)
            if not operator.startswith("$") or kind != DOCUMENT:
                self.refuse(here, Reason.BAD_FIELD)
                continue
            for child, (inner, name, argument) in enumerate(value):
                self.argument(operator, tuple(name.split(".")), here + (child,), inner, argument)

    def argument(self, operator, path, place, kind, value):
        """An element of the document behind an operator: the path of a field, and a value."""
        positional = is_positional(self.rules, path)
        if positional:
            self.refuse(place, Reason.POSITIONAL_ON_PATH)
        if operator == "$rename":
            self.renamed(path, place, kind, value)
        elif not positional:
            self.changed(operator, path, place, kind, value)

    def changed(self, operator, path, place, kind, value):
        """What any other operator does to the field at a path."""
        stands = self.standing(path)
        if operator in ("$set", "$setOnInsert", "$unset") and stands == BELOW:
            self.refuse(place, Reason.BELOW_PROTECTED)
        elif operator in ("$set", "$setOnInsert"):
            self.stored(path, place, kind, value, None)
        elif operator != "$unset" and stands != CLEAR:
            self.refuse(place, Reason.OPERATOR_ON_PROTECTED)

    def renamed(self, source, place, kind, value):
        """A sealed value may only come under a rule that is the same."""
        if kind != STRING:
            self.refuse(place, Reason.BAD_FIELD)
            return
        target = tuple(words_of(value).split("."))
        if is_positional(self.rules, target):
            self.refuse(place, Reason.POSITIONAL_ON_PATH)
        found = [rule_at(self.rules, path) for path in (source, target)]
        same = all(found) and len({(rule.algorithm, rule.key, frozenset(rule.types)) for rule in found}) == 1
        if not same and not self.standing(source) == self.standing(target) == CLEAR:
            self.refuse(place, Reason.RENAME_MIXED)

    # ---- the fields of a command: what judges one takes its place, its type and its value

    def fields(self, place, elements, read, required):
        """Judges the fields that are read, once each; read is a dictionary from names to what judges them."""
        for name in required:
            if all(name != other for _, other, _ in elements):
                self.refuse(place, Reason.BAD_FIELD)
        seen = set()
        for number, (kind, name, value) in enumerate(elements):
            if name in read:
                if name in seen:
                    self.refuse(place + (number,), Reason.BAD_FIELD)
                seen.add(name)
                read[name](place + (number,), kind, value)

    def unusable(self, place, _kind, _value):
        """A field that may stand in no command on a collection with rules."""
        self.refuse(place, Reason.FIELD_NOT_ALLOWED)

    def documents(self, place, kind, value, judge):
        """An array of documents, each of which is judged so."""
        if kind != ARRAY:
            self.refuse(place, Reason.BAD_FIELD)
            return
        for number, (inner, _, elements) in enumerate(value):
            if inner == DOCUMENT:
                judge(place + (number,), elements)
            else:
                self.refuse(place + (number,), Reason.BAD_FIELD)

    def array_of(self, judge):
        """What judges a field that is such an array."""
        return lambda place, kind, value: self.documents(place, kind, value, judge)

    def document_for(self, judge):
        """What judges a field that is a document, which is judged so."""
        def judged(place, kind, value):
            if kind == DOCUMENT:
                judge(place, value)
            else:
                self.refuse(place, Reason.BAD_FIELD)
        return judged

    def replacement(self, place, kind, value):
        """The field `u` of an update; an array is a pipeline."""
        if kind == ARRAY:
            self.refuse(place, Reason.PIPELINE)
        else:
            self.document_for(self.update)(place, kind, value)

    def projection(self, place, elements):
        """Which fields are shown: no expression may look at them."""
        for number, (kind, _, value) in enumerate(elements):
            single = kind == DOCUMENT and len(value) == 1 and value[0][1] in ("$slice", "$meta")
            if kind == ARRAY or (kind == DOCUMENT and not single):
                self.refuse(place + (number,), Reason.FIELD_NOT_ALLOWED)

    def item_of_updates(self, place, elements):
        """One member of `updates`."""
        self.fields(place, elements, {"q": self.document_for(self.filter), "u": self.replacement,
                                      "arrayFilters": self.unusable, "c": self.unusable}, ["q", "u"])

    def item_of_deletes(self, place, elements):
        """One member of `deletes`."""
        self.fields(place, elements, {"q": self.document_for(self.filter)}, ["q"])

    def command(self, elements):
        """The whole command, whose first name says what it does."""
        read, required = {
            "insert": ({"documents": self.array_of(self.whole)}, ["documents"]),
            "update": ({"updates": self.array_of(self.item_of_updates), "let": self.unusable}, ["updates"]),
            "delete": ({"deletes": self.array_of(self.item_of_deletes), "let": self.unusable}, ["deletes"]),
            "find": ({"filter": self.document_for(self.filter), "projection": self.document_for(self.projection),
                      "min": self.unusable, "max": self.unusable, "let": self.unusable}, []),
        }[elements[0][1]]
        self.fields((), elements, read, required)
        return self
