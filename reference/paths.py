"""How a field stands to the rules of its collection, by its path (docs/SCHEMAS.md, where the four words are). The paths
of rules are as schemas.py has them; that of a field is a tuple of names."""
import re

PROTECTED, BELOW, ABOVE, CLEAR = "protected", "below", "above", "clear"


def is_part(part, name):
    """Whether a part of a rule's path stands for this name."""
    return name not in part if isinstance(part, frozenset) else name == part


def rule_at(rules, path):
    """The rule that protects the field at this path, or None."""
    protects = (rule for other, rule in rules.items() if len(other) == len(path) and all(map(is_part, other, path)))
    return next(protects, None)


def is_above(rules, path):
    """Whether rules stand below this path, or at it."""
    return any(other[:len(path)] == path for other in rules)


def standing(rules, path):
    """Protected by a rule; below a field that is; above one; or clear of all rules."""
    if rule_at(rules, path):
        return PROTECTED
    if any(rule_at(rules, path[:length]) for length in range(len(path))):
        return BELOW
    return ABOVE if is_above(rules, path) else CLEAR


def is_position(rules, path):
    """Whether the last name of a path is a position in an array that stands where a document with rules should."""
    if not path[:-1] or standing(rules, path[:-1]) != ABOVE:
        return False
    return path[-1].startswith("$") or bool(re.fullmatch(r"[0-9]+", path[-1])) and standing(rules, path) == CLEAR


def is_positional(rules, path):
    """Whether a path has such a position anywhere."""
    return any(is_position(rules, path[:length]) for length in range(1, len(path) + 1))
