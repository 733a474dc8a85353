"""The instructions of node programs: the word of each, its operands, and which jump, send or end (docs/users/nodes.md)."""

# The greatest number of 64 bits.
GREATEST = (1 << 64) - 1
# For each word the variant of Instr, and its fields in the order of the text, each with its kind: a packet register (p), a number register
# (r), a width (w), a number register or a number (x), a label (L), or a number in one of the ranges below.
FORMS = {
    "alloc": ("Alloc", "into:p pool:i refused:L"),
    "free": ("Free", "packet:p"),
    "clone": ("Clone", "into:p from:p pool:i refused:L"),
    "prepend": ("Prepend", "packet:p count:c"),
    "adj": ("Adj", "packet:p count:c"),
    "append": ("Append", "packet:p count:c"),
    "trim": ("Trim", "packet:p count:c"),
    "chain": ("Chain", "front:p back:p"),
    "ifhead": ("IfHead", "packet:p least:c less:L"),
    "iftail": ("IfTail", "packet:p least:c less:L"),
    "iflen": ("IfLen", "packet:p least:c less:L"),
    "iflast": ("IfLast", "packet:p least:c less:L"),
    "load": ("Load", "into:r packet:p offset:c width:w"),
    "store": ("Store", "packet:p offset:c width:w from:r"),
    "loadx": ("LoadX", "into:r packet:p index:r offset:c width:w"),
    "storex": ("StoreX", "packet:p index:r offset:c width:w from:r"),
    "set": ("Set", "into:r value:n"),
    "mov": ("Mov", "into:r from:r"),
    "add": ("Add", "into:r by:x"),
    "sub": ("Sub", "into:r by:x"),
    "and": ("And", "into:r by:x"),
    "or": ("Or", "into:r by:x"),
    "xor": ("Xor", "into:r by:x"),
    "shl": ("Shl", "into:r by:s"),
    "shr": ("Shr", "into:r by:s"),
    "jmp": ("Jmp", "to:L"),
    "jeq": ("Jeq", "left:r right:x equal:L"),
    "jlt": ("Jlt", "left:r right:m below:L"),
    "lookup": ("Lookup", "into:r table:t address:r missed:L"),
    "tx": ("Tx", "packet:p port:r full:L"),
    "enq": ("Enq", "packet:p ring:i full:L"),
    "exit": ("Exit", ""),
}
# The kinds of numbers, each with its range: a count of bytes or an offset, the index of a pool or ring, that of a table, how many bits to
# shift by, any number of 64 bits, and any but 0.
RANGES = {"c": (0, 65_535), "i": (0, 7), "t": (0, 3), "s": (0, 63), "n": (0, GREATEST), "m": (1, GREATEST)}


def fields_of(word: str) -> list[tuple[str, str]]:
    """The fields of an instruction, each with its kind."""
    named = (it.partition(":") for it in FORMS[word][1].split())
    return [(name, kind) for name, _, kind in named]


# The words of instructions whose last operand is the label to which they may jump. Of these `jmp` alone has no condition.
JUMPS = frozenset(word for word in FORMS if [kind for _, kind in fields_of(word)][-1:] == ["L"])
# Those after which control does not go on to the next instruction.
LAST = frozenset(("jmp", "exit"))
# Those that send a packet, and the kind of place to which.
SENDS = {"tx": "port", "enq": "ring"}
# Those at which something ends, and what then becomes of packets.
ENDS = {"free": "freed", "exit": "ended"}
