"""What is wrong with a capture, and what helps."""
from typing import NamedTuple

from documents import Document
from faulty_files import folder_with, go_to

# How files of other formats begin, and the command that makes a capture of each.
PCAPNG = "it is a pcapng file; editcap -F nsecpcap IN OUT converts it to a capture"
MODIFIED = "it is a modified pcap file; editcap -F pcap IN OUT converts it to a capture"
PACKED = "it is compressed by {0}; {0} -dc IN > OUT unpacks it"
FORMATS = {
    b"\x0a\x0d\x0d\x0a": PCAPNG,
    b"\x34\xcd\xb2\xa1": MODIFIED,
    b"\xa1\xb2\xcd\x34": MODIFIED,
    b"\x1f\x8b": PACKED.format("gzip"),
    b"BZh": PACKED.format("bzip2"),
    b"\xfd7zXZ\0": PACKED.format("xz"),
    b"\x28\xb5\x2f\xfd": PACKED.format("zstd"),
    b"\x04\x22\x4d\x18": PACKED.format("lz4"),
}
NO_ETHERNET = "capture on an Ethernet interface: these records have no Ethernet headers"
CHECKSUMS = "remove the checksums at the ends of the frames: editcap -F pcap -T ether -L -C -4 IN OUT"
OTHER_BITS = "capture on an Ethernet interface: these bits do not say that each frame ends with a checksum of 4 bytes"
WIRELESS = "capture on an Ethernet interface, or on a wireless one that is not in monitor mode"
COOKED_2 = "capture on one Ethernet interface in place of any"
COOKED = f"{COOKED_2}, or make Ethernet headers of these: editcap -F pcap -T ether -L -C 2 IN OUT"
OTHERS = "if each record really is an Ethernet frame: editcap -F pcap -T ether IN OUT; else capture on an Ethernet interface"
# Link types: their names in the registry, and what helps.
LINKS = {
    0: ("NULL", NO_ETHERNET),
    1: ("ETHERNET", CHECKSUMS),
    9: ("PPP", NO_ETHERNET),
    101: ("RAW", NO_ETHERNET),
    105: ("IEEE802_11", WIRELESS),
    108: ("LOOP", NO_ETHERNET),
    113: ("LINUX_SLL", COOKED),
    127: ("IEEE802_11_RADIOTAP", WIRELESS),
    228: ("IPV4", NO_ETHERNET),
    229: ("IPV6", NO_ETHERNET),
    276: ("LINUX_SLL2", COOKED_2),
    **dict.fromkeys(range(147, 163), ("USER", OTHERS)),
}
# The upper half of a header's field of the link type if each frame ends with a checksum of 4 bytes (pcap 2.4: two 16-bit units, and the bit that the
# length is given).
CHECKSUMS_OF_4 = 0x2400
# Where else an output goes.
SHARED = {
    "read": "the run reads this file, so it is not overwritten",
    "output": "another port writes this file, too",
    "stdout": "standard output goes to this file, too",
    "stderr": "standard error goes to this file, too",
}
# The numbers of two causes: no magic number of a capture, and a link type that is not Ethernet.
BAD_MAGIC, BAD_LINK = 1, 3


class Problem(NamedTuple):
    """What is wrong, and what helps, if there is a line for that."""

    because: str
    help: str | None


def of_link(link: int) -> Problem:
    """Of a header's field of the link type; its upper half says whether frames end with a checksum."""
    upper, number = divmod(link, 65536)
    name, cure = LINKS.get(number, ("", OTHERS))
    alone = f" with {upper} in the upper 16 bits, and not 1 ETHERNET alone" if upper else ", and not 1 ETHERNET"
    return Problem(f"the link type is {number}{' ' if name else ''}{name}{alone}", OTHER_BITS if number == 1 and upper != CHECKSUMS_OF_4 else cure)


def of_capture(document: Document) -> Problem:
    """Of a file that is no capture, or one of another kind."""
    if document["cause"] == BAD_LINK and document.get("link") is not None:
        return of_link(document["link"])
    formats = [text for front, text in FORMATS.items() if bytes(document["front"]).startswith(front)]
    return Problem(formats[0] if document["cause"] == BAD_MAGIC and formats else document["words"], None)


def say_capture(document: Document) -> str:
    """The lines after the fault of a capture. If the folder of the pipeline file has it, that is what helps."""
    kind = document["kind"]
    folder = folder_with(document["pipeline"], document["name"]) if kind == "system" and "name" in document else None
    problem = of_capture(document) if kind == "capture" else Problem(SHARED.get(kind) or document["words"], None)
    cure = problem.help if folder is None else go_to(folder)
    lines = {"file": document.get("file"), "because": problem.because, "help": cure}
    return "".join(f"  {name}: {text}\n" for name, text in lines.items() if text is not None)
