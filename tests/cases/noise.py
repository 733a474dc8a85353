"""Files with some bytes changed."""
from random import Random


def changed_bytes(rng: Random, data: bytes) -> bytes:
    """A text or capture with some bytes changed."""
    for _ in range(rng.choice((1, 1, 1, 2, 5))):
        at = rng.randrange(len(data) + 1)
        how = rng.randrange(7)
        if how == 0 and at < len(data):
            data = data[:at] + bytes([rng.randrange(256)]) + data[at + 1 :]
        elif how == 1 and at < len(data):
            data = data[:at] + bytes([data[at] ^ 1 << rng.randrange(8)]) + data[at + 1 :]
        elif how == 2:
            data = data[:at] + rng.choice((b"\0", b"\n", b" ", b",", b":", b"#", b"0", b"\xff", b"\r", b"-1", b'"')) + data[at:]
        elif how == 3:
            data = data[:at] + data[at + rng.choice((1, 1, 2, 9)) :]
        elif how == 4:
            data = data[:at]
        elif how == 5:
            data = data[:at] + data[at : at + 40] + data[at:]
        else:
            lines = data.split(b"\n")
            rng.shuffle(lines)
            data = b"\n".join(lines) if rng.random() < 0.2 else data + rng.choice((b"\n", b"\0", b"exit\n", b"0"))
    return data
