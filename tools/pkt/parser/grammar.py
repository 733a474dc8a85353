"""The tables of the grammar: operators, limits, the syntax of statements, the words of declarations, and cures."""
import operator

from ..cures import WANTED
from ..syntax import Chain, Clone, Cut, Drop, Free, If, Let, Need, New, Node, Pop, Push, Send, Truncate, While

OPERATORS = {
    "+": operator.add, "-": operator.sub, "*": operator.mul, "<<": operator.lshift, ">>": operator.rshift,
    "&": operator.and_, "|": operator.or_, "^": operator.xor,
}  # fmt: skip
COMPARISONS = {"==": "==", "!=": "!=", "<": ">", ">": "<", "<=": ">=", ">=": "<="}  # each operator, and its form with swapped sides
ASSIGNMENTS = ("=", *(f"{sign}=" for sign in OPERATORS))
# What an operation on the second part of an operation is on the whole: x - (a - b) is x - a + b.
INNER = {"++": "+", "+-": "-", "-+": "-", "--": "+", "&&": "&", "||": "|", "^^": "^"}
# The binary operators, those that bind least first. `not` binds closer than `and`, and `in` like a comparison.
LEVELS = (("or",), ("and",), (*COMPARISONS, "in"), ("|",), ("^",), ("&",), ("<<", ">>"), ("+", "-"), ("*",))
NOT, NUMBERS = 2, 3
# How many digits a number has, how many parentheses or braces lie in one another, how many operators follow one another, how many items a
# list has, how many statements a text, how many operators and items in all, and how many headers follow one another.
MAX_DIGITS, MAX_NESTING, MAX_OPERATORS, MAX_ITEMS, MAX_STATEMENTS, MAX_IN_ALL, MAX_HEADERS = 20, 40, 200, 1_024, 4_096, 16_384, 32
LIMITS = {"port": 7, "table": 3, "ring": 7, "pool": 7, "count": 65_535, "length": 4_096, "number of ports": 8, "number of segments": 64, "headroom": 65_535}
# The syntax after the first word of a statement: methods of the parser, words, and constants within limits.
STATEMENTS: dict[str, tuple[type[Node], str]] = {
    "let": (Let, ""), "if": (If, "condition block other_block"), "while": (While, "condition block"), "need": (Need, "condition fallback"),
    "drop": (Drop, ""), "send": (Send, "packet_to number fallback"), "queue": (Send, "packet_to ring fallback"),
    "clone": (Clone, "packet 'from pool fallback"), "new": (New, "packet 'from pool fallback"), "free": (Free, "packet_held"),
    "chain": (Chain, "packet_held 'before 'this"), "push": (Push, "pushed packet_on"), "pop": (Pop, "path"),
    "cut": (Cut, "packet_first count"), "truncate": (Truncate, "packet_first kept"),
}  # fmt: skip

# The cure where a constant is wanted, and a number is none.
EACH = "if x == 1 { .. } else if x == 2 { .. } has a case for each number that matters"
BRACED = "else { .. }"
# The note on a difference that is compared.
UNDER = "a difference is a great number where it would be below 0, as numbers are unsigned; {} asks for what {} seems to ask"
# The cures where the number of one of these is wanted.
NUMBERED = {"table": "table ROUTES = 0, and let x = lookup ROUTES ipv4.dst", "pool": "pool CLONES = 1, and clone c from CLONES"}
# The cure for a header of which not its first bits have the length, as that of TCP with its options.
OTHER_LENGTH = "v is the first bits of the header; where other bits have the length, declare one header for each: after tcp if tcp.off == 6"
# What others call the packet as a whole.
FOREIGN = ("meta", "metadata", "standard_metadata", "packet", "pkt", "skb", "ctx")
# What is no number, and the cures where one is wanted.
NO_NUMBERS = {
    "a set": "x in {}", "a packet": "send {0} to 1, or queue {0} to 0", "a def": "{}(..) is a statement", "a table": "let x = lookup {} ..",
    "a pool": "clone c from {}", "a ring": "queue {}",
}  # fmt: skip
# The cures for signs where a statement is wanted.
NO_STATEMENTS = {
    "not": "a condition is no statement: if not udp { drop }", "and": "`and` is between conditions; a clone is sent to a second port",
    "or": "`or` is between conditions; send 0 else { .. } says what happens otherwise",
    "}": "no block is open here: a { is missing before, or this } is one too many", "{": "a block comes after a condition, `else` or a `def`",
    "(": 'no parentheses are after drop, send and count: drop "why"', ":": "a block is within braces: else { .. }",
    **dict.fromkeys(COMPARISONS, "a condition is no number: if c { x = 1 } else { x = 0 }"),
}  # fmt: skip
# The words that begin a declaration.
DECLARING = ("const", "ports", "segments", "otherwise", "given", "header")
# The words that begin a declaration where a name or a text is after them, each with one; elsewhere they are names.
WORDS = {
    "set": "set WEB = {80, 443}", "def": "def f() { .. }", "include": 'include "net.pkt"', "table": "table ROUTES = 0", "pool": "pool CLONES = 1",
    "ring": "ring SLOW = 0", "extend": WANTED["after"],
}  # fmt: skip
