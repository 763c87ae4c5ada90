"""A command judged: what its own fields refuse, then what it holds by rules.py, under the rules of its collection.

Collections are as schemas.py reads them, `infos`: a dictionary from names to their rules and whether they are views.
"""
from reference.bson import STRING, text, words_of
from reference.reasons import Reason
from reference.rules import Contents

# What concerns no stored value and goes out as it is, and what is judged; every other command is refused.
PASSING = ["ping", "hello", "getMore", "killCursors", "endSessions", "listCollections", "commitTransaction",
           "abortTransaction"]
MARKED = ["insert", "update", "delete", "find"]


def info_of(infos, command):
    """The rules of a command's collection, and whether it is a view."""
    return infos.get(words_of(command[0][2]), ({}, False))


def first_refusal(command, passing=tuple(PASSING), judged=tuple(MARKED)):
    """What refuses a command for its first field (place, reason), or None."""
    if not command:
        return (), Reason.NOT_A_COMMAND
    kind, name, value = command[0]
    if name not in [*passing, *judged]:
        return (0,), Reason.NOT_A_COMMAND
    if name in judged and (kind != STRING or value == text("")):
        return (0,), Reason.BAD_FIELD
    return None


def later_refusals(command, database):
    """What refuses a command for its later fields: its name again, `$db` again or of another type, or another `$db`."""
    once = {command[0][1]}  # the names that may not come again
    for number, (kind, name, value) in enumerate(command[1:], 1):
        if name in once or name == "$db" and kind != STRING:
            yield (number,), Reason.BAD_FIELD
        if name == "$db":
            once.add(name)
            if value != text(database):
                yield (number,), Reason.WRONG_DB


def judge_fields(infos, command, database):
    """What refuses a command for its own fields (place, reason), or None; that its collection is a view comes last."""
    refused = first_refusal(command)
    if refused or command[0][1] in PASSING:
        return refused
    _, is_view = info_of(infos, command)
    view = ((0,), Reason.VIEW) if is_view else None
    return min(later_refusals(command, database), default=view)


def rules_of(infos, command):
    """The rules under which a command stands whose own fields are right."""
    return {} if command[0][1] in PASSING else info_of(infos, command)[0]


def judge(infos, command, database):
    """What refuses a command (place, reason), or None."""
    refused = judge_fields(infos, command, database)
    if refused or not rules_of(infos, command):
        return refused
    return min(Contents(rules_of(infos, command)).command(command).offences, default=None)
