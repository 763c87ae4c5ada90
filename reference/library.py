"""The rules on the commands that a library takes: what rules.py says of insert, update, delete and find, and more of
each, since a library sends nothing of a field that isn't listed (fields.py).

A protected value stands in a filter, in an update or in a stored document, wherever the command has them. Beside these
an order, a choice of fields, a name, a number, a bool or a document of MongoDB's own names may stand.
"""
from reference.bson import ARRAY, BOOL, DOCUMENT, DOUBLE, INT, LONG, NULL, STRING, words_of
from reference.commands import MARKED, first_refusal, info_of, later_refusals
from reference.fields import (BRANCHES, EXPLAIN, INDEX, INDEX_TYPES, ITEMS, LISTED, OWN, OWN_STAGES, PASSING, REQUIRED,
                              STAGES, UNRULED)
from reference.paths import CLEAR, is_positional, rule_at
from reference.reasons import Reason
from reference.rules import Contents

SAID = (DOUBLE, INT, LONG, BOOL)  # the types by which an order, or a choice of fields, is said


def is_branch(kind):
    """Whether a value of this type has elements."""
    return kind in (DOCUMENT, ARRAY)


def is_array_of(kind, value, kinds):
    """Whether a value is an array whose elements have these types."""
    return kind == ARRAY and all(inner in kinds for inner, _, _ in value)


def is_flat(kind, value):
    """Whether what a value holds has no elements."""
    return not is_branch(kind) or all(not is_branch(inner) for inner, _, _ in value)


class LibraryContents(Contents):
    """One walk over a command that a library takes; what a field holds is judged by the method `of_` and that word.

    `beyond` are offences that only a library sees: in a field of insert, update, delete and find that the rules don't
    read, and in what names fields. They count where there are no others.
    """

    def __init__(self, rules):
        super().__init__(rules)
        self.beyond = []

    def refused(self):
        """What refuses the command (place, reason), or None."""
        return min(self.offences or self.beyond, default=None)

    # ---- documents of which each field is listed

    def listed(self, place, elements, holds):
        """Judges each field by what it holds; one that isn't listed, or stands twice, is refused."""
        seen = set()
        for number, (kind, name, value) in enumerate(elements):
            if name in seen:
                self.refuse(place + (number,), Reason.BAD_FIELD)
            seen.add(name)
            self.held(holds.get(name), place + (number,), kind, name, value)

    def others(self, place, elements, holds):
        """Judges the fields that the rules don't read of a document that they judge."""
        before = len(self.offences)
        self.listed(place, elements, holds)
        self.beyond += self.offences[before:]
        del self.offences[before:]

    def held(self, what, place, kind, name, value):
        """Judges a field that holds this; None where it isn't listed."""
        if what == "own":
            self.own(OWN[name], place, kind, value)
        elif what is None:
            self.refuse(place, Reason.FIELD_NOT_ALLOWED)
        elif what not in ("read", "any"):
            getattr(self, "of_" + what)(place, kind, value)

    def own(self, names, place, kind, value):
        """A document of MongoDB's own names, as these are."""
        self.want(kind == DOCUMENT, place)
        for number, (inner, name, _) in enumerate(value if kind == DOCUMENT else []):
            self.allow(name in names and (name in BRANCHES or not is_branch(inner)), place + (number,))

    def want(self, well, place):
        """Refuses a field that isn't well."""
        if not well:
            self.refuse(place, Reason.FIELD_NOT_ALLOWED)

    def allow(self, well, place):
        """The same where only a library sees it."""
        if not well:
            self.beyond.append((place, Reason.FIELD_NOT_ALLOWED))

    def of_word(self, place, kind, _value):
        self.want(not is_branch(kind), place)

    def of_list(self, place, kind, value):
        self.want(kind != DOCUMENT and (kind != ARRAY or all(is_flat(inner, one) for inner, _, one in value)), place)

    # ---- what names fields, and says no value of them

    def of_keys(self, place, kind, value):
        self.document_for(self.keys)(place, kind, value)

    def keys(self, place, elements):
        """An order, or a choice of fields: 1, -1, true."""
        for number, (kind, _, _) in enumerate(elements):
            self.allow(kind in SAID, place + (number,))

    def projection(self, place, elements):
        """The choice of fields of a find, which may also have a part of an array, or what a search tells."""
        super().projection(place, elements)
        for number, (kind, _, value) in enumerate(elements):
            self.allow(kind in SAID + (DOCUMENT,), place + (number,))
            for inner, word, chosen in value if kind == DOCUMENT else []:
                self.chosen(place + (number, 0), inner, word, chosen)

    def chosen(self, place, kind, word, value):
        """A part of an array, or what a search tells."""
        cut = word == "$slice"
        self.allow(cut and kind in SAID + (ARRAY,) or word == "$meta" and kind == STRING, place)
        for number, (inner, _, _) in enumerate(value if cut and kind == ARRAY else []):
            self.allow(inner in SAID, place + (number,))

    def of_index_keys(self, place, kind, value):
        self.document_for(self.index_keys)(place, kind, value)

    def index_keys(self, place, elements):
        """The keys of an index: 1, -1, "text"."""
        for number, (kind, _, value) in enumerate(elements):
            self.allow(kind in SAID or kind == STRING and words_of(value) in INDEX_TYPES, place + (number,))

    def of_hint(self, place, kind, value):
        if kind == DOCUMENT:
            self.index_keys(place, value)
        else:
            self.want(kind == STRING, place)

    def of_path(self, place, kind, value):
        """The field whose values a distinct compares: by what they are sealed to, where they are."""
        if kind != STRING:
            self.refuse(place, Reason.BAD_FIELD)
            return
        path = tuple(words_of(value).split("."))
        rule = rule_at(self.rules, path)
        if is_positional(self.rules, path):
            self.refuse(place, Reason.POSITIONAL_ON_PATH)
        elif self.standing(path) != CLEAR and not (rule and rule.algorithm == "D"):
            self.refuse(place, Reason.BELOW_PROTECTED)

    # ---- what holds values

    def of_filter(self, place, kind, value):
        self.document_for(self.filter)(place, kind, value)

    def of_update(self, place, kind, value):
        self.replacement(place, kind, value)

    def filter(self, place, elements):
        """A filter, of which a comment is a text."""
        super().filter(place, elements)
        for number, (kind, name, _) in enumerate(elements):
            self.allow(name != "$comment" or kind == STRING, place + (number,))

    def operators(self, path, place, elements):
        """Operators, of which `$exists` has a number or a bool."""
        super().operators(path, place, elements)
        for number, (kind, name, _) in enumerate(elements):
            self.allow(name != "$exists" or kind in SAID, place + (number,))

    def changed(self, operator, path, place, kind, value):
        """An operator of an update, of which `$unset` has a number, a bool or the empty text."""
        super().changed(operator, path, place, kind, value)
        self.allow(operator != "$unset" or kind in SAID or kind == STRING and not words_of(value), place)

    # ---- items, indexes, stages

    def item_of_updates(self, place, elements):
        super().item_of_updates(place, elements)
        self.others(place, elements, ITEMS["update"])

    def item_of_deletes(self, place, elements):
        super().item_of_deletes(place, elements)
        self.others(place, elements, ITEMS["delete"])

    def of_indexes(self, place, kind, value):
        self.documents(place, kind, value, lambda here, elements: self.listed(here, elements, INDEX))

    def of_pipeline(self, place, kind, value):
        self.documents(place, kind, value, self.stage)

    def stage(self, place, elements):
        """A stage of a pipeline: one name, and what stands behind it."""
        if len(elements) != 1:
            self.refuse(place, Reason.BAD_FIELD)
            return
        [(kind, name, value)] = elements
        self.held(STAGES.get(name), place + (0,), kind, name, value)

    def of_number(self, place, kind, _value):
        self.want(kind in SAID, place)

    def is_clear(self, name):
        """Whether a dotted path is clear of all rules."""
        path = tuple(name.split("."))
        return self.standing(path) == CLEAR and not is_positional(self.rules, path)

    def of_new_name(self, place, kind, value):
        self.want(kind == STRING and self.is_clear(words_of(value)), place)

    def of_names(self, place, kind, value):
        self.want(kind == STRING or is_array_of(kind, value, [STRING]), place)

    def of_group(self, place, kind, value):
        """A group of all documents, of which only their number, or so many times a number, is told."""
        if kind != DOCUMENT:
            self.refuse(place, Reason.FIELD_NOT_ALLOWED)
            return
        for number, (inner, name, told) in enumerate(value):
            summed = inner == DOCUMENT and len(told) == 1 and told[0][1] == "$sum" and told[0][0] in SAID
            well = inner in SAID + (NULL,) if name == "_id" else summed
            twice = name in [other for _, other, _ in value[:number]]
            self.want(well and self.is_clear(name), place + (number,))
            if twice:
                self.refuse(place + (number,), Reason.BAD_FIELD)

    # ---- whole commands

    def command(self, elements):
        """The whole command, whose first name says what it does."""
        name, names = elements[0][1], [name for _, name, _ in elements]
        if name in MARKED:
            super().command(elements)
            self.others((), elements, LISTED[name])
            return self
        one = name != "findAndModify" or ("update" in names) != ("remove" in names)
        if not one or any(required not in names for required in REQUIRED.get(name, [])):
            self.refuse((), Reason.BAD_FIELD)
        self.listed((), elements, LISTED[name])
        return self


def elsewhere(command):
    """What refuses a command, whatever its collection's rules, since it may speak of another collection."""
    for number, (kind, name, value) in enumerate(command):
        if command[0][1] in ("create", "collMod") and name not in [*LISTED[command[0][1]], *UNRULED]:
            yield (number,), Reason.FIELD_NOT_ALLOWED
        if command[0][1] == "aggregate" and name == "pipeline":
            yield from (((number, *place), reason) for place, reason in foreign_stages(kind, value))


def foreign_stages(kind, stages):
    """What refuses a pipeline without rules."""
    if kind != ARRAY:
        yield (), Reason.BAD_FIELD
        return
    for number, (inner, _, stage) in enumerate(stages):
        if inner != DOCUMENT or len(stage) != 1:
            yield (number,), Reason.BAD_FIELD
        elif stage[0][1] not in OWN_STAGES:
            yield (number, 0), Reason.FIELD_NOT_ALLOWED


def first_listed(command, holds):
    """What refuses a command of which nothing is sealed."""
    contents = LibraryContents({})
    contents.listed((), command, holds)
    return min(contents.offences + contents.beyond, default=None)


def judge_explained(infos, command, database):
    """What refuses an explain: what stands beside the command that it explains, or that command."""
    refused = first_listed(command, EXPLAIN)
    if refused or command[0][0] != DOCUMENT:
        return refused or ((0,), Reason.BAD_FIELD)
    refused = judge_ruled(infos, command[0][2], database)
    return refused and ((0, *refused[0]), refused[1])


def judge_ruled(infos, command, database):
    """What refuses a command on a collection."""
    refused = first_refusal(command, [], LISTED) or min([*later_refusals(command, database), *elsewhere(command)],
                                                        default=None)
    if refused:
        return refused
    rules, is_view = info_of(infos, command)
    if is_view:
        return (0,), Reason.VIEW
    return LibraryContents(rules).command(command).refused() if rules else None


def judge(infos, command, database):
    """What refuses a command that a library is given (place, reason), or None."""
    name = command[0][1] if command else None
    if name == "explain":
        return judge_explained(infos, command, database)
    return first_listed(command, PASSING[name]) if name in PASSING else judge_ruled(infos, command, database)


def marks_of(infos, command):
    """What is sealed of a command that isn't refused: a dictionary from places to algorithms and needs."""
    _, name, value = command[0]
    if name == "explain":
        return {(0, *place): mark for place, mark in marks_of(infos, value).items()}
    rules = {} if name in PASSING else info_of(infos, command)[0]
    return LibraryContents(rules).command(command).marks if rules else {}
