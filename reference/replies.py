"""Marking replies of a service that isn't trusted: which reply is the right one to a command, and how far a row of
pairs, each a command and the reply to it, is accepted. The right one is that of marking.py, but that the elements of a
reply and the fields of a marking may have any order, and that a reply's other elements aren't read."""
from reference.bson import BOOL, DOCUMENT, ENCRYPTED, binary, contents_of, is_encrypted, places_of, spell, with_values
from reference.commands import judge
from reference.marking import marks_of, reply
from reference.reading import documents_of
from reference.reasons import Reason

READ = {"hasEncryptionPlaceholders": BOOL, "schemaRequiresEncryption": BOOL, "result": DOCUMENT}  # what is read
ORDER = ["v", "a", "ki", "ka"]  # of the fields of a marking, which has one of the last two
WITHOUT = ()  # the place of a refusal that has none


def in_order(kind, value):
    """A value, with its fields in their order where it is a marking: 00, and a document of three of these fields, each
    once."""
    if not is_encrypted(kind, value) or contents_of(value)[:1] != b"\0":
        return kind, value
    try:
        [(fields, _)] = documents_of(contents_of(value)[1:])
    except ValueError:
        return kind, value
    if sorted(name for _, name, _ in fields) not in (["a", "ki", "v"], ["a", "ka", "v"]):
        return kind, value
    return kind, binary(ENCRYPTED, b"\0" + spell(sorted(fields, key=lambda field: ORDER.index(field[1]))))


def ordered(result, marks):
    """A result, with the fields of each marking at the place of a protected value in their order."""
    values = {place: in_order(kind, value) for place, kind, value in places_of(result) if place in marks}
    return with_values(result, values)


def judge_reply(infos, command, elements):
    """What is wrong with a reply (place, reason) to a command that isn't refused, or None."""
    found = {}
    for number, (kind, name, _) in enumerate(elements):
        if name in READ:
            if kind != READ[name] or name in found:
                return (number,), Reason.REPLY_SHAPE
            found[name] = number
    if len(found) < len(READ):
        return WITHOUT, Reason.REPLY_SHAPE
    [(right, _)] = documents_of(reply(infos, command))
    marks = marks_of(infos, command)
    for _, name, wanted in right[:len(READ)]:
        _, _, value = elements[found[name]]
        if (ordered(value, marks) if name == "result" else value) != wanted:
            return (found[name],), Reason.REPLY_DIFFERS
    return None


def judge_pairs(infos, documents, cut, database):
    """Judges commands and replies in turn, behind which perhaps a cut document stands: how many pairs are accepted; the
    number of the document that is named and its refusal (place, reason), or None; how many documents were read."""
    for number in range(0, len(documents), 2):
        command, *answer = documents[number:number + 2]
        refused = judge(infos, command, database)
        if refused:
            return number // 2, (number + 1, refused), number + 1
        if not answer:
            missing = None if cut else (number + 1, (WITHOUT, Reason.REPLY_MISSING))
            return number // 2, missing, number + 1
        wrong = judge_reply(infos, command, answer[0])
        if wrong:
            return number // 2, (number + 2, wrong), number + 2
    return len(documents) // 2, None, len(documents)
