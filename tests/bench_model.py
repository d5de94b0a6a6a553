#!/usr/bin/env python3
"""What the bench program is run on, and what document 01 says that it writes: a model of its own, which shares nothing with the
program. Run it from the repository's root after a change:

    python3 tests/bench_model.py crates/bench

It writes stdin and stdout there; the gate compares the program with them and needs no Python."""
import struct
import sys

STORE, RETRIEVE, LIST, DELETE, EXIST = 0x01, 0x02, 0x06, 0x10, 0x14
KEY_MAX, VALUE_MAX, MAX_KEYS, SIZE, ID = 16, 64, 1024, 4096, 1


def entry(op, key, amount=0, options=0, cid=0, nsid=1, fused=0, length=None, noise=False, stale=b""):
    """noise fills all that must not count, which is what no field has; stale is what stands behind a key, else zeros."""
    e = bytearray(b"\xa5" * 64 if noise else bytes(64))
    padded = (key + stale).ljust(16, b"\0")
    e[0] = op
    e[1] = (0xFC if noise else 0) | fused
    e[2:4] = struct.pack("<H", cid)
    e[4:8] = struct.pack("<I", nsid)
    e[8:16] = padded[:8]
    e[40:44] = struct.pack("<I", amount)
    e[44] = len(key) if length is None else length
    e[45] = options | (0xFC if noise else 0)
    e[56:64] = padded[8:]
    return bytes(e)


def page(keys, size):
    out, shown = b"", 0
    for k in keys:
        one = struct.pack("<H", len(k)) + k
        one += bytes(-len(one) % 4)
        if 4 + len(out) + len(one) > size:
            break
        out, shown = out + one, shown + 1
    return struct.pack("<I", shown) + out


class Module:
    def __init__(self):
        self.pairs = {}

    def refusal(self, op, fused, nsid, field, length, amount, options, room):
        """Steps b to j; a cannot be. The field is all sixteen bytes."""
        key = field[:length]
        used = sum(len(k) + len(v) for k, v in self.pairs.items() if k != key)  # a pair that is replaced is out by then
        held = key in self.pairs
        if op not in (STORE, RETRIEVE, LIST, DELETE, EXIST):
            return 0x01
        if fused != 0:
            return 0x02
        if nsid != ID:
            return 0x0B
        if length > 16:
            return 0x02
        if any(field[length:]):
            return 0x02
        if length > KEY_MAX or (length == 0 and op != LIST):
            return 0x86
        if op == STORE and amount > VALUE_MAX:
            return 0x85
        if op == LIST and amount < 4:
            return 0x02
        if op in (STORE, RETRIEVE, LIST) and room < amount:
            return 0x04
        if not held and (op in (RETRIEVE, DELETE, EXIST) or op == STORE and options & 1):
            return 0x87
        if held and op == STORE and options & 2:
            return 0x89
        if op == STORE and (not held and len(self.pairs) >= MAX_KEYS or used + length + amount > SIZE):
            return 0x81
        return 0

    def command(self, e, buffer):
        """Status, Dword 0, and the bytes handed over or None."""
        op, fused, options, length = e[0], e[1] & 3, e[45], e[44]
        nsid, amount = struct.unpack("<I", e[4:8])[0], struct.unpack("<I", e[40:44])[0]
        field = e[8:16] + e[56:64]
        key = field[:length]
        status = self.refusal(op, fused, nsid, field, length, amount, options, len(buffer))
        if status:
            return status, 0, None
        if op == STORE:
            self.pairs[key] = buffer[:amount]
        if op == DELETE:
            del self.pairs[key]
        if op == RETRIEVE:
            value = self.pairs[key]
            return 0, len(value), value[:amount]
        if op == LIST:
            return 0, 0, page(sorted(k for k in self.pairs if k >= key), amount)
        return 0, 0, None


def model(stdin):
    """The lines, and the statuses that were seen."""
    module, lines, seen, at, count = Module(), [], set(), 0, 0
    while at < len(stdin):
        e = stdin[at : at + 64]
        at += 64
        if len(e) < 64:
            lines.append("cut")
            break
        count += 1
        amount = struct.unpack("<I", e[40:44])[0]
        buffer = bytes(4096) if e[0] in (RETRIEVE, LIST) else b""
        if e[0] == STORE:
            n = min(amount, 4096)
            buffer = stdin[at : at + n]
            at += n
            if len(buffer) < n:
                lines.append("cut")
                break
        status, dword0, given = module.command(e, buffer)
        seen.add(status)
        word = 1 | status << 1
        lines.append(struct.pack("<IIHHHH", dword0, 0, count % 65536, 1, struct.unpack("<H", e[2:4])[0], word).hex())
        if given is not None:
            lines.append(given.hex())
    return "".join(line + "\n" for line in lines), seen


def store(key, value, options=0, **more):
    return entry(STORE, key, len(value), options, **more) + value


def cases():
    a, ab, b, az = b"A", b"AB", b"B", b"A\0"
    long = bytes(range(1, 17))
    yield entry(EXIST, a, cid=0x1234)  # document 01's own example
    yield entry(LIST, b"", 4)  # P6
    yield entry(LIST, b"", 4096)
    # P7; step e, and f with length 0
    yield entry(EXIST, long)
    yield entry(EXIST, long, length=17)
    yield entry(EXIST, long, length=255)
    yield entry(EXIST, b"")
    yield entry(RETRIEVE, b"", 8)
    yield entry(DELETE, b"")
    yield store(b"", b"no key")
    # P11, and each option where the key is absent and where it is held
    yield store(a, b"never", 3)
    yield store(a, b"never", 1)
    yield store(a, b"hello", 2, cid=0xFFFF)
    yield store(a, b"never", 2)
    yield store(a, b"never", 3)
    yield store(a, b"HELLO", 1)
    # P12; sizes below, at and above the value's length, 0 and 4096, and 04h above
    for n in (3, 5, 6, 0, 4096, 4097, 0xFFFFFFFF):
        yield entry(RETRIEVE, a, n)
    # P1 to P5
    yield store(ab, b"")
    yield store(b, bytes(range(64)))
    for n in (16, 15, 12, 8, 7, 4, 3, 0, 4096, 4097):
        yield entry(LIST, b"", n)
    yield entry(LIST, b"AA", 16)
    yield entry(LIST, ab, 16)
    yield entry(LIST, b"C", 16)
    yield entry(LIST, long, 4096, length=17)
    # an empty value, one of 64 bytes, and replacement by a shorter, an empty and a longer one
    yield entry(RETRIEVE, ab, 4096)
    yield entry(RETRIEVE, b, 4096)
    yield store(b, b"\xff\x00\xfe")
    yield entry(RETRIEVE, b, 4096)
    yield store(b, b"")
    yield entry(RETRIEVE, b, 4096)
    yield store(b, b"long again" * 6)
    yield entry(RETRIEVE, b, 61)
    # "A" and "A" with a zero byte are two keys
    yield entry(EXIST, az)
    yield store(az, b"other")
    yield entry(RETRIEVE, a, 64)
    yield entry(RETRIEVE, az, 64)
    yield entry(LIST, az, 4096)
    # Delete, and again
    yield entry(DELETE, a)
    yield entry(DELETE, a)
    yield entry(RETRIEVE, a, 64)
    yield entry(EXIST, ab)
    yield entry(LIST, b"", 4096)
    # what is not looked at; Dword 10 of Delete and Exist
    yield store(long, b"sixteen", noise=True)
    yield entry(RETRIEVE, long, 64, noise=True)
    yield entry(EXIST, ab, 0xFFFFFFFF, noise=True)
    yield entry(LIST, b"A", 4096, noise=True)
    yield entry(DELETE, ab, 0xFFFFFFFF, noise=True)
    # bytes behind the key: the next one, the last one, all; with no key too, and in each of the five commands
    for stale in (b"\1", b"\0" * 14 + b"\x80", b"\xff" * 15):
        yield entry(EXIST, b, stale=stale)
        yield entry(LIST, b"", 4096, stale=stale)
    yield store(b, b"never", stale=b"\0never")
    yield entry(RETRIEVE, b, 64, stale=b"\0\0\1")
    yield entry(LIST, b, 4096, stale=b"\0\0\0\0\0\0\0\1")
    yield entry(DELETE, b, stale=b"\0\0\0\0\0\0\1")
    yield entry(EXIST, long[:15], stale=b"\x10")
    yield entry(EXIST, b"", stale=b"\1")
    yield entry(RETRIEVE, b, 64)
    # steps b, c, d; the order of steps where two refuse
    for op in (0x00, 0x03, 0x05, 0x11, 0xFF):
        yield entry(op, a, 0xFFFFFFFF, fused=1)
    for op in (RETRIEVE, LIST, DELETE, EXIST):
        yield entry(op, b, 8, fused=2, nsid=2)
        yield entry(op, b, 8, nsid=0, length=17)
    yield store(b, b"value", fused=3)
    yield store(b, b"value", nsid=0xFFFFFFFF)
    # 85h at 65; Dword 10 above 4096 is followed by 4096 bytes
    yield store(b, bytes(64))
    yield store(b, bytes(65))
    yield store(b, bytes(4096), 1)
    yield entry(STORE, b, 4097) + b"\x14" * 4096
    yield entry(STORE, b, 0xFFFFFFFF) + b"\x02" * 4096
    yield entry(RETRIEVE, b, 4096)
    # 81h: keys of 16 bytes with values of 64, until one does not fit
    for i in range(52):
        yield store(b"key %012d" % i, bytes([i]) * 64)
    # full to the last byte, which "r" takes: an equal value, a shorter one, and longer ones with and without the byte given back
    first = b"key %012d" % 0
    yield store(b"r", b"")
    yield store(b"s", b"")
    yield store(b"r", b"!")
    yield store(first, b"\1" * 64)
    yield store(first, b"\2" * 63)
    yield store(b"r", b"!")
    yield store(first, b"\3" * 64)
    yield entry(RETRIEVE, first, 64)
    yield store(first, b"")
    yield store(b, bytes(64))
    yield entry(LIST, b"key", 200)
    yield entry(LIST, b"", 4096)
    # room is used again
    yield entry(DELETE, b"key %012d" % 7)
    yield store(b"key again 123456", b"\x7f" * 64)
    yield entry(RETRIEVE, b"key again 123456", 4096)
    yield entry(RETRIEVE, b"key %012d" % 49, 4096)
    # cut inside a value
    yield store(b"cut", b"never whole")[:-1]


def main():
    stdin = b"".join(cases())
    stdout, seen = model(stdin)
    assert seen == {0x00, 0x01, 0x02, 0x0B, 0x04, 0x85, 0x86, 0x87, 0x89, 0x81}, seen
    assert stdout.startswith("00000000000000000100010034120f01\n") and stdout.endswith("cut\n")
    with open(sys.argv[1] + "/stdin", "wb") as f:
        f.write(stdin)
    with open(sys.argv[1] + "/stdout", "w") as f:
        f.write(stdout)
    print(len(stdin), "bytes,", stdout.count("\n"), "lines")


main()
