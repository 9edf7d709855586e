"""Tables of rules: the rules that a text spells, or the first cause that refuses it; and a table's step."""
import collections
import re

from .programs import IP, PASSING, Program, source

GREATEST_STATE, MOST_RULES = 15, 256
# State, match, next state and verdict. Behind d and f of a match stands a number.
FORM = re.compile(rb"([0-9]+):(\*|t|u|[df][0-9]+)>([0-9]+)/([PD])")
GREATEST = {"d": 65_535, "f": 255}

Rule = collections.namedtuple("Rule", "state match number after verdict")


def read(text):
    """The rules of a text, and why it is refused, with the place: the bytes before the rule, or the state."""
    rules, place = [], 0
    for piece in text.split(b","):
        rule = rule_of(piece)
        cause = why_refused(piece, rule, len(rules) + 1)
        if cause:
            return None, f"Table {cause} at {place}"
        rules.append(rule)
        place += len(piece) + 1
    held = {0, *(rule.after for rule in rules)}
    lacking = held - {rule.state for rule in rules if rule.match == "*"}
    return (None, f"Table NoAny at {min(lacking)}") if lacking else (rules, None)


def rule_of(piece):
    """The rule that a piece spells, or None where it hasn't the form."""
    found = FORM.fullmatch(piece)
    if not found:
        return None
    state, match, after, verdict = (part.decode() for part in found.groups())
    return Rule(int(state), match[0], int(match[1:] or 0), int(after), {"P": "PASS", "D": "DROP"}[verdict])


def why_refused(piece, rule, count):
    if not piece:
        return "Empty"
    if not rule:
        return "Form"
    if max(rule.state, rule.after) > GREATEST_STATE or rule.number > GREATEST.get(rule.match, 0):
        return "Range"
    return "Rules" if count > MOST_RULES else None


def holds(rule, frame):
    """Whether a rule's match holds of a packet."""
    return {
        "*": True,
        "t": frame.kind == "Tcp",
        "u": frame.kind == "Udp",
        "d": frame.kind in ("Tcp", "Udp") and frame.destination_port == rule.number,
        "f": frame.kind == "Tcp" and frame.flags & rule.number == rule.number,
    }[rule.match]


def step(table, packet, given):
    """The first rule for the state of the source that holds of the packet gives the next state and the verdict."""
    state = table.get(source(packet), 0)
    rule = next(rule for rule in given["table"] if rule.state == state and holds(rule, packet.frame))
    table.set(source(packet), rule.after)
    return rule.verdict


TABLE = Program(PASSING, IP, step)
