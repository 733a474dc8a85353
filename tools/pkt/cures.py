"""What to write in place of a word that is out of place: the usual slips of those who know C, P4, Python, nftables and tcpdump."""
from collections.abc import Iterable, Sequence
from difflib import get_close_matches

BRACES, LIST, RANGE = "what belongs to it is within braces: if c { drop }", "x in {1, 2} compares x with each", "a range comes after `in`: x in 1..5"
COMPARE = "a sign is between two numbers, as ==, or `in`; what belongs to a condition is within braces"
ITEMS, DEF = "a comma is between two items, and } after the last one", "def f() { .. } has no parameter, def f(a) { .. } has one"
ASSIGN, AFTER, UNIT = "an = is before the value", "after udp if udp.dport == 7; after udp if 1, where nothing decides", "a number has no unit: lengths are in bytes, and fields in bits"
LOOKUP, ALONE = "let x = lookup ROUTES ipv4.dst", "statements stand alone, with no block around them"
FIELD = "a field has its bits after a colon, as in a:8, and blanks before the next one"
# The cures for these words out of place.
CURES = {
    "=": "compare with ==, or <= and >=",
    "/": "a prefix comes after `in`; there is no division, and >> n divides by 2^n; a comment begins with #",
    "!": "write `not`",
    ";": "no sign ends a statement or a field, and a comma is between two items",
    "&": "write `and`",
    "|": "write `or`",
    "-": "write x -= 1",
    "+": "write x += 1",
    "%": "there is no division, and x & 7 is the rest of x by 8",
    ">": "a number is missing before it; a field has a dot, as in ipv4.ttl, and <> is !=",
    ":": "an Ethernet address has six groups, and an IPv6 address eight, or :: for groups of 0",
    "?": "if c { x = 1 } else { x = 2 }",
    ",": "leave it out; `and` is between conditions, and / between the headers of a path; a clone is sent to a second port",
    ")": "no parenthesis is open here, or nothing is in it",
    ".": "a field has no parts, and tcp.flags & 2 is a bit of one; an IPv4 address has four parts",
    "{": f"a block comes after a condition; {LIST}",
    "}": "an item is missing before it: a list has one at least, and no comma at its end, and a range has two ends",
    "[": "a list is within braces, x in {1, 2}; there are no arrays: header mine { a:16 b:8 } after udp if 1 names the bytes after udp",
    '"': "a text ends in its line",
    "'": "a text is within double quotes, and a number within none",
    "\\": "a statement may go on in the next line without a sign",
    "\ufeff": "save the file without this byte-order mark, which editors do not show",
    "the end of the text": "a block ends with }",
    "else": "an `else` comes after its statement: if, need, let with lookup, send, queue, clone or new",
    "lookup": "let x = lookup ..",
    "not": "not x in {1, 2}; if not udp { x = 1 }, as a condition is no number",
    "is": "compare with ==; if ipv4 { .. } asks whether there is the header",
    "to": "send c to 1; push eth { type = 5 } on h; x in 1..5",
    "clone": "clone c from 1", "new": "new h from 0",
    "set": "write x = 5",
    "this": "send this to 1, or only send 1; queue this to 0",
    "auto": "auto is the checksum of a pushed header; mend updates one",
    "port": "tcp.dport == 80 compares the port of a packet; ports 4 says how many ports there are, and port UP = 1 names one",
    "count": "count web, without quotes and parentheses",
}  # fmt: skip
# The words that have one cure.
SLIPS = {
    "write 1": "true True",
    "write 0": "false False None NULL",
    "write `else if`": "elif elsif elseif",
    "let x = .. makes a variable": "int uint u8 u16 u32 u64 uint8_t uint16_t uint32_t uint64_t var bool local bit unsigned signed long short char mut",
    "drop, or send port, ends the program": "return exit",
    "if x == 1 { .. } else if x == 2 { .. } has a case for each number": "switch case match",
    "while c { .. } repeats statements": "for loop do repeat foreach until",
    "pop vlan takes a header out, and push vlan { vid = 5 } puts one in": "remove delete insert strip decap encap",
    "if not c { .. }": "unless",
    "an assignment begins with a variable or a field, and count web counts by 1": "+= -= *= &= |= ^= <<= >>=",
    "the condition of `while` ends a loop": "break continue",
    "def f() { .. } gives a block a name, and f() is its statement": "function func fn action void",
    "const WEB = 80 names a number": "define static enum",
    'include "net.pkt"': "import use",
    "header mine { kind:8 left:24 } after eth if eth.type == 0x88b5":
        "struct typedef parser extract follows on when state transition select",
    ALONE: "apply control main filter",
    "statements begin with let, if, while, need, drop, send: send port sends the packet to where it came from, and send 1 to port 1":
        "accept pass allow permit forward redirect output XDP_PASS XDP_TX XDP_REDIRECT TC_ACT_OK NF_ACCEPT",
    "write drop": "reject deny block discard mark_to_drop XDP_DROP XDP_ABORTED TC_ACT_SHOT NF_DROP",
    "clone c from 1, and send c to 1": "mirror copy duplicate dup tee",
    "mend ipv4.ttl = 64 changes a field and its checksums, and sum = auto makes the checksum of a pushed header":
        "recompute recalculate update fix checksum csum",
    "no statement adds bytes at the end of a packet: push puts headers at its front": "append pad tailroom",
    "count web counts packets, and nothing is printed": "log print printf printk counter",
    "mend ipv4.dst = 10.0.0.1 changes an address and its checksums": "dnat snat nat masquerade",
    "a rule is as if tcp.dport == 80 { drop }": "host src dst ip ip6 ether rule iptables nft add",
    "port == 0 asks where the packet came from, and send 1 sends it": "meta iif iifname oif oifname in_port out_port ingress_port egress_port egress_spec",
    "no program keeps anything from packet to packet; tcp.flags & 16 is in all but the first one": "ct conntrack stateful register remember",
    "no program keeps anything from packet to packet or knows the time, as a rate needs; ipv4.id & 15 == 0 is true of one packet in 16":
        "meter limit quota rate police policer shape shaper bucket token tokens",
    "no program splits a packet or puts pieces together; need ipv4.pieces == 0 asks for whole ones": "fragment defragment reassemble split",
    "let a = eth.src, and then eth.src = eth.dst and eth.dst = a, exchange two fields": "swap exchange",
    "def f() { .. } gives a block a name; nothing else is jumped to": "goto jump call label",
    "if length > 100 asks for the length": "greater less",
    "compare with ==, !=, <, >, <= or >=": "eq ne neq gt lt ge le equals",
    "x ^ y is of numbers; of conditions: a and not b or b and not a": "xor",
    UNIT: "bytes byte bits octets kb ms seconds packets pps",
    "a prefix is as ipv4.src in 10.0.0.0/8": "mask net",
    "a name has no sign before it": "@ $",
    "a list is within braces, x in {1, 2}": "]",
    "a number is missing before it": "* == != < <= >=",
    "a text is within plain double quotes": "` \u2018 \u2019 \u201c \u201d",
    "type a plain minus sign": "\u2013 \u2014 \u2212",
    RANGE: "between ..",
    BRACES: "then",
}  # fmt: skip
CURES |= {word: cure for cure, words in SLIPS.items() for word in words.split()} | {"\u00a0": "type a plain blank"}
# The instructions with which a line of a node program may begin, and no statement.
INSTRUCTIONS = frozenset("iflen iflast ifhead iftail alloc prepend adj trim load store loadx storex mov jmp jeq jlt tx enq".split())
NODE_PROGRAM = "this is an instruction of a node program, which is not compiled: dpv filter FILE.dpv IN OUT runs it"
# The cures where a word is wanted, and the next one, one of this kind, or any other is in its place.
WANTED = {
    "{": BRACES, "{:": BRACES, "{the end of the text": BRACES, "{,": "a list is within braces: x in {1, 2}", "{)": "no parenthesis is open here",
    "{number": COMPARE, "{ip": COMPARE, "}": ITEMS, "}{": ITEMS, ")": "the parenthesis before it is open", "),": LIST, "(": DEF, "({": DEF,
    "=": ASSIGN, "={": ASSIGN, "=:": ASSIGN, "===": ASSIGN, "from": "clone c from 1, or new h from 1", "before": "chain h before this",
    "this": "chain h before this: only the packet gets headers so, and a clone of it can go on as it was",
    "for": "length v * 4 for v:8 in 5..15", ":": "length v * 4 for v:8 in 5..15", "if": AFTER, "if.": AFTER, ".": "over ipv4.src ipv4.dst names fields",
    "{to": RANGE,
    "after": "extend ipv4 after mine if mine.type == 5",
}  # fmt: skip
# What others call the known headers, and their fields: of these the first one that a header has.
HEADERS = {
    "ipv4": "ip ip4 iph iphdr", "ipv6": "ip6 ip6h", "eth": "ether ethernet mac ethhdr", "icmp6": "icmpv6 nd", "vlan": "dot1q tag", "qinq": "dot1ad svlan",
    "l4": "th transport",
}  # fmt: skip
FIELDS = {
    "src sport spa": "src saddr src_addr srcaddr source smac sip", "dst dport tpa": "dst daddr dst_addr dstaddr dest destination dmac dip",
    "proto next type": "protocol nexthdr next_header nh proto next", "ttl hops": "ttl hops hoplimit hop_limit hlim",
    "sum": "checksum csum chksum check cksum hdrchecksum", "len": "length total_len totallen tot_len total_length plen payload_len size",
    "pcp tc": "prio priority cos", "vid": "id vlan_id vlanid tag tci", "type": "ethertype ether_type h_proto", "sport": "src_port srcport",
    "dport": "dst_port dstport", "op": "oper opcode", "window": "win", "tos class": "tos dscp tc traffic_class", "flow": "flowlabel flow_label fl",
    "ihl off": "hdrlen hlen doff data_offset", "frag": "frag_off fragoffset frag_offset offset", "urgent": "urg_ptr urgptr", "bottom": "s bos",
}  # fmt: skip
# Bits that others give names of their own.
BITS = {"tcp": {"fin": 1, "syn": 2, "rst": 4, "psh": 8, "ack": 16, "urg": 32, "ece": 64, "cwr": 128}, "ipv4": {"mf": 1, "df": 2}}
# What the bits of a field are, for a mask that has none of them.
MASKED = {
    "tcp.flags": "1 is FIN, 2 SYN, 4 RST, 8 PSH and 16 ACK", "ipv4.flags": "1 says that more fragments follow, and 2 forbids them",
    "ipv4.frag": "ipv4.pieces has the bit for more fragments too: need ipv4.pieces == 0",
}  # fmt: skip
# What one of a field is, where others count bytes.
COUNTED = dict.fromkeys(("ipv4.ihl", "tcp.off"), "it counts 4 bytes: 5 are 20 bytes") | {"ipv4.frag": "it counts 8 bytes: 185 are 1,480 bytes"}
NUMBERS = {
    **BITS["tcp"], **BITS["ipv4"], "broadcast": 0xFFFFFFFFFFFF, **{f"tcp_{name}": value for name, value in BITS["tcp"].items()}, "ipproto_icmp": 1, "ipproto_tcp": 6, "ipproto_udp": 17, "ipproto_gre": 47,
    "ipproto_icmpv6": 58, "eth_p_ip": 0x0800, "eth_p_arp": 0x0806, "eth_p_ipv6": 0x86DD, "eth_p_8021q": 0x8100, "http": 80, "https": 443, "ssh": 22,
    "dns": 53, "ef": 46, **{f"cs{k}": 8 * k for k in range(8)}, **{f"af{k}{n}": 8 * k + 2 * n for k in range(1, 5) for n in range(1, 4)},
}  # fmt: skip
MOVED = ("push", "pop", "insert", "remove", "setvalid", "setinvalid", "add", "delete", "strip")
LENGTHS, ORDERS = ("len", "size", "pkt_len", "frame_len", "packet_length"), ("htons", "ntohs", "htonl", "ntohl", "bpf_htons", "bpf_ntohs")
# What others calculate with functions, and what there is in their place.
CALLED = {
    "a hash is made of numbers: h = ipv4.src ^ ipv4.dst, h ^= h >> 16, and h & 3 is one of four": "hash crc crc16 crc32 jhash toeplitz murmur symhash",
    "no number is random: ipv4.id & 15 == 0 is true of one packet in 16": "random rand sample bpf_get_prandom_u32",
    "no program knows the time": "now time timestamp clock ktime bpf_ktime_get_ns",
    "sum = auto makes the checksum of a pushed header, and mend updates one": "checksum csum cksum ipchecksum csum_diff bpf_csum_diff",
}  # fmt: skip
ASKED, INSIDE = ("isvalid", "valid", "present", "exists"), ("options", "option", "opts", "payload", "data", "body", "rest")
# What asks for the options of a header, and where the header is that follows it.
OPTIONS = {
    "ipv4": "ipv4.ihl > 5, and a header after ipv4, which begins after the options",
    "tcp": "tcp.off > 5, and header mine { kind:8 size:8 } after tcp if tcp.off > 5, the first option",
}


def cure_of(word: str, known: Iterable[str] = (), wanted: str = "", kind: str = "") -> str:
    """The cure for a word, which may be a known one in other letters, where another one is wanted."""
    is_small = word.lower() == word or word.lower() not in known
    exact = WANTED.get(wanted + word) if wanted else ""
    other = (WANTED.get(wanted + kind) or WANTED.get(wanted)) if wanted else ""
    of_kind = {"string": "a number has no quotes, and a comment begins with #", "number": "a number is no statement, and send 1 is one"}.get(kind, "")
    return exact or CURES.get(word) or ("" if is_small else f"write {word.lower()}, in small letters") or other or of_kind


def meant(word: str, known: Iterable[str], most: int = 1) -> str:
    """The known names that may be meant by a word, or nothing."""
    names = {name.lower(): name for name in known}
    return " or ".join(names[it] for it in get_close_matches(word.lower(), names, most))


def header_meant(word: str, known: Iterable[str]) -> str:
    """The header that may be meant by a word, or nothing."""
    return next((name for name, words in HEADERS.items() if word.lower() in words.split()), "") or meant(word, known)


def field_meant(header: str, word: str, fields: Iterable[str]) -> str:
    """What may be meant by a word that is no field of a header, or nothing."""
    if word.lower() in ASKED:
        return f"if {header} {{ .. }}"
    if word.lower() in BITS.get(header, {}):
        return f"{header}.flags & {BITS[header][word.lower()]}"
    if word.lower() in MOVED:
        return f"push {header} {{ .. }} or pop {header}"
    if word.lower() in INSIDE[:3] and header in OPTIONS:
        return OPTIONS[header]
    if word.lower() in INSIDE:
        return f"header mine {{ a:8 }} after {header} if {header}.{next(iter(fields))} == 5, for what follows it"
    if word.lower() == "port" and "sport" in fields:
        return f"{header}.sport or {header}.dport"
    others = [name for names, words in FIELDS.items() if word.lower() in words.split() for name in names.split() if name in fields]
    found = others[0] if others else meant(word, fields)
    return f"{header}.{found}" if found else ""


def call_meant(word: str) -> str:
    """What to write for the call of a name that means nothing."""
    others = f"def {word}(a) {{ .. }}, before it, makes {word}(1) a statement; nothing that is called gives a number"
    return next((cure for cure, words in CALLED.items() if word.lower() in words.split()), others)


def number_meant(word: str, fields: Sequence[tuple[str, str]], numbers: Iterable[str]) -> str:
    """What to write for a name that means nothing. The fields are those of all headers."""
    if word in (*SLIPS["write 1"].split(), *SLIPS["write 0"].split()):
        return CURES[word]
    if word.lower() in ORDERS:
        return f"a field is a number already: leave {word} out"
    if word.lower() in LENGTHS:
        return "length is how many bytes the packet has"
    if word == "count":
        return "count web is a statement, and gives no number"
    if word in ("range", "to"):
        return RANGE if word == "range" else "send 1, or send c to 1 for another packet"
    others = [f"{header}.{name}" for header, name in fields if name == word]
    header = next((it for it, _ in fields if it.lower() == word.lower() or word.lower() in HEADERS.get(it, "").split()), "")
    near = " or ".join(others[:3]) or header or meant(word, numbers)
    value = NUMBERS.get(word.lower())
    one = f"{value:#06x}" if value is not None and value > 1023 else value
    cure = f"let {word} = .. makes one, to the end of its block, and const {word} = .. a constant"
    return f"did you mean {near}? else {cure}" if near else f"{cure}, as const {word} = {one}" if value is not None else cure
