"""For every check of document 01 a datagram that just passes it and one that just fails it, for tests/probe.

Each case has words that say which check it stands for, the datagram, and the probe's answer without its number. What is expected is written
here by hand from document 01, and not taken from a program.
"""
import struct

PREAMBLE = bytes.fromhex("001000004153432d45312e3137000000")
CID = bytes(range(16))
cases = []

def u16(n): return struct.pack(">H", n)
def u32(n): return struct.pack(">I", n)
def flags(n, top=0x7000): return u16(top + n)
def field(name, rubbish=b"\0"): return name + b"\0" + rubbish * (63 - len(name))

def root(frame, vector, length=None, top=0x7000, behind=b""):
    n = 22 + len(frame) if length is None else length
    return PREAMBLE + flags(n, top) + u32(vector) + CID + frame + behind

def dmp(values=b"\0\1\2", length=None, top=0x7000, vector=2, kind=0xa1, first=0, step=1, count=None):
    n = 10 + len(values) if length is None else length
    k = len(values) if count is None else count
    return flags(n, top) + bytes([vector, kind]) + u16(first) + u16(step) + u16(k) + values

def framing(inner=None, length=None, top=0x7000, vector=2, name=None, prio=100, sync=0, seq=1, options=0, universe=1):
    inner = dmp() if inner is None else inner
    n = 77 + len(inner) if length is None else length
    return flags(n, top) + u32(vector) + (field(b"FOH") if name is None else name) + bytes([prio]) + u16(sync) + bytes([seq, options]) + u16(universe) + inner

def data(**k): return root(framing(**k), 4)
# A framing part of n bytes: its length says all of them, or 6, which lies within it; and likewise a DMP part of which the length says 3.
def cut(n): return root(framing()[:n], 4)
def short(n): return root(framing(length=6)[:n], 4)
def inner(n): return data(inner=dmp(length=3)[:n])

def sync(length=11, top=0x7000, vector=1, address=8000): return root(flags(length, top) + u32(vector) + b"\7" + u16(address) + bytes(2), 8)

def layer(universes=(1, 2), length=None, top=0x7000, vector=1, page=0, last=0, tail=b""):
    body = b"".join(u16(u) for u in universes) + tail
    n = 8 + len(body) if length is None else length
    return flags(n, top) + u32(vector) + bytes([page, last]) + body

def disc(inner=None, length=None, name=None):
    inner = layer() if inner is None else inner
    n = 74 + len(inner) if length is None else length
    return root(flags(n) + u32(2) + (field(b"FOH") if name is None else name) + bytes(4) + inner, 8)

def refused(number, place, value=0): return f"refused {number} place {place} value {value}"
def spelled(b): return b.hex() or "-"
def read_data(name="464f48", prio=100, sync=0, univ=1, values=b"\0\1\2"): return f"data cid {CID.hex()} name {name} prio {prio} sync {sync} seq 1 flags 000 univ {univ} values {spelled(values)}"
def read_sync(address=8000): return f"sync cid {CID.hex()} seq 7 addr {address}"
def read_disc(universes=(1, 2), name="464f48", page=0, last=0): return f"disc cid {CID.hex()} name {name} page {page} last {last} universes {spelled(b''.join(u16(u) for u in universes))}"
def case(words, datagram, expected): cases.append((words, datagram, expected))

# Names that are not UTF-8, and how many of their bytes are good.
MALFORMED = [
    ("a character whose second byte is none", b"\xc3\x28", 0),
    ("a character cut by the end", b"\x61\xc3", 1),
    ("a surrogate", b"\x61\x62\xed\xa0\x80", 2),
    ("a byte that begins none", b"\xe2\x82\xac\xc0", 3),
    ("three bytes of four", b"\xf0\x9f\x92", 0),
    ("62 bytes and then ff", b"n" * 62 + b"\xff", 62),
]

good = data()
case("preamble below 16 bytes", PREAMBLE[:15], refused(1, 1))
case("preamble of 16 bytes", PREAMBLE, refused(1, 2))
case("preamble size", b"\0\x11" + good[2:], refused(2, 1))
case("postamble", good[:3] + b"\1" + good[4:], refused(2, 1))
case("identifier, first byte", good[:4] + b"\x42" + good[5:], refused(2, 1))
case("identifier, last byte", good[:15] + b"\1" + good[16:], refused(2, 1))
case("all of the preamble", good, read_data())
case("root part of 5 bytes", good[:21], refused(1, 2))
case("root part of 6 bytes, length beyond it", good[:22], refused(14, 2, 112))
case("root flags 0x60", root(framing(), 4, top=0x6000), refused(3, 2, 0x60))
case("root flags 0x80", root(framing(), 4, top=0x8000), refused(3, 2, 0x80))
case("root flags 0x60, length beyond its part", root(framing(), 4, length=4095, top=0x6000), refused(3, 2, 0x60))
case("root length one beyond its part", root(framing(), 4, length=113), refused(14, 2, 113))
case("root length beyond its part, vector 3", root(framing(), 3, length=4095), refused(14, 2, 4095))
case("root length one below its part", root(framing(), 4, behind=b"\xff"), read_data())
case("root vector 3", root(framing(), 3), refused(4, 2, 3))
case("root vector 5", root(framing(), 5), refused(4, 2, 5))
case("root vector 9", root(framing(), 9), refused(4, 2, 9))
case("root length 21", root(framing(), 4, length=21), refused(13, 2))
case("root length 22", root(framing(), 4, length=22), refused(1, 3))

case("data framing part of 5 bytes", cut(5), refused(1, 3))
case("data framing part of 6 bytes", short(6), refused(13, 3))
case("data framing flags 0x60", data(top=0x6000), refused(3, 3, 0x60))
case("data framing flags 0x60, length beyond its part", data(length=4095, top=0x6000), refused(3, 3, 0x60))
case("data framing length one beyond its part", data(length=91), refused(14, 3, 91))
case("data framing length beyond its part, vector 1", data(length=4095, vector=1), refused(14, 3, 4095))
case("data framing vector 1", data(vector=1), refused(4, 3, 1))
case("data framing vector 3", data(vector=3), refused(4, 3, 3))
case("name field cut", short(69), refused(13, 3))
case("name with no zero in its 64", data(name=b"n" * 64), refused(6, 3))
case("name of 63 bytes", data(name=field(b"n" * 63)), read_data(name="6e" * 63))
case("name empty", data(name=bytes(64)), read_data(name="-"))
for words, name, whole in MALFORMED:
    case(f"name: {words}", data(name=field(name)), refused(7, 3, whole))
    # A reader that left the zero out would go on with 80, and not with ff. A name of 63 bytes has nothing behind its zero.
    for rubbish in [b"\x80", b"\xff"] if len(name) < 63 else []:
        case(f"name: {words}, {rubbish.hex()} after the zero", data(name=field(name, rubbish)), refused(7, 3, whole))
case("name UTF-8", data(name=field(b"\xc3\xa9")), read_data(name="c3a9"))
case("rubbish after the name's zero", data(name=field(b"n", b"\xff")), read_data(name="6e"))
case("priority missing", short(70), refused(13, 3))
case("priority 200", data(prio=200), read_data(prio=200))
case("priority 201", data(prio=201), refused(8, 3, 201))
case("sync address cut", short(72), refused(13, 3))
case("sync address 63999", data(sync=63999), read_data(sync=63999))
case("sync address 64000", data(sync=64000), refused(9, 3, 64000))
case("sequence missing", short(73), refused(13, 3))
case("options missing", short(74), refused(13, 3))
case("universe cut", short(76), refused(13, 3))
case("universe 0", data(universe=0), refused(10, 3, 0))
case("universe 1", data(universe=1), read_data())
case("universe 63999", data(universe=63999), read_data(univ=63999))
case("universe 64000", data(universe=64000), refused(10, 3, 64000))
case("(n) framing length 76, all fields good", data(length=76), refused(13, 3))
case("(n) framing length 76, priority 201", data(length=76, prio=201), refused(8, 3, 201))
case("framing length 77", data(length=77), refused(1, 4))

case("DMP part of 2 bytes", inner(2), refused(1, 4))
case("DMP flags 0x60", data(inner=dmp(top=0x6000)), refused(3, 4, 0x60))
case("DMP flags 0x60, length beyond its part", data(inner=dmp(length=4095, top=0x6000)), refused(3, 4, 0x60))
case("DMP length one beyond its part", data(inner=dmp(length=14)), refused(14, 4, 14))
case("DMP length beyond its part, vector 1", data(inner=dmp(length=4095, vector=1)), refused(14, 4, 4095))
case("DMP vector 1", data(inner=dmp(vector=1)), refused(4, 4, 1))
case("DMP vector 3", data(inner=dmp(vector=3)), refused(4, 4, 3))
case("address type missing", inner(3), refused(13, 4))
case("address type 0xa0", data(inner=dmp(kind=0xa0)), refused(2, 4))
case("first address cut", inner(5), refused(13, 4))
case("first address 1", data(inner=dmp(first=1)), refused(2, 4))
case("increment cut", inner(7), refused(13, 4))
case("increment 2", data(inner=dmp(step=2)), refused(2, 4))
case("count cut", inner(9), refused(13, 4))
case("count one above the values", data(inner=dmp(count=4)), refused(15, 4, 4))
case("count one below the values", data(inner=dmp(count=2)), refused(15, 4, 2))
case("count 65535", data(inner=dmp(count=65535)), refused(15, 4, 65535))
case("count 0 with three values", data(inner=dmp(count=0)), refused(15, 4, 0))
case("514 values, count one below", data(inner=dmp(values=bytes(514), count=513)), refused(15, 4, 513))
case("no values", data(inner=dmp(values=b"")), refused(17, 4))
case("count 0 with one value", data(inner=dmp(values=b"\0", count=0)), refused(15, 4, 0))
case("one value", data(inner=dmp(values=b"\0")), read_data(values=b"\0"))
case("513 values", data(inner=dmp(values=bytes(513))), read_data(values=bytes(513)))
case("514 values", data(inner=dmp(values=bytes(514))), refused(2, 4))

case("extended framing part of 5 bytes", root(b"\x70\x0b\0\0\0", 8), refused(1, 3))
case("extended framing part of 6 bytes", root(flags(6) + u32(1), 8), refused(5, 3, 6))
case("extended framing flags 0x60", sync(top=0x6000), refused(3, 3, 0x60))
case("extended framing flags 0x60, length beyond root's part", sync(length=4095, top=0x6000), refused(3, 3, 0x60))
case("length one beyond root's part, vector 7", sync(length=34, vector=7), refused(14, 3, 34))
case("length within root's part, vector 7", sync(length=33, vector=7), refused(4, 3, 7))
case("extended framing vector 0", sync(vector=0), refused(4, 3, 0))
case("extended framing vector 3", sync(vector=3), refused(4, 3, 3))
case("sync framing length beyond root's part", sync(length=4095), refused(14, 3, 4095))
case("sync framing length one beyond its part", sync(length=12), refused(14, 3, 12))
case("sync framing length 10", sync(length=10), refused(5, 3, 10))
case("sync framing length 11", sync(), read_sync())
case("sync packet's address 0", sync(address=0), refused(9, 3, 0))
case("sync packet's address 1", sync(address=1), read_sync(1))
case("sync packet's address 63999", sync(address=63999), read_sync(63999))
case("sync packet's address 64000", sync(address=64000), refused(9, 3, 64000))

case("discovery framing length beyond root's part", disc(length=4095), refused(14, 3, 4095))
case("discovery framing length one beyond its part", disc(length=87), refused(14, 3, 87))
case("discovery framing length 81", disc(layer(()), length=81), refused(5, 3, 81))
case("discovery framing length 82", disc(layer(())), read_disc(()))
case("discovery name with no zero", disc(name=b"n" * 64), refused(6, 3))
case("discovery name of 63 bytes", disc(name=field(b"n" * 63)), read_disc(name="6e" * 63))
for words, name, whole in MALFORMED:
    case(f"discovery name: {words}", disc(name=field(name)), refused(7, 3, whole))
case("discovery layer flags 0x60", disc(layer(top=0x6000)), refused(3, 5, 0x60))
case("discovery layer flags 0x60, length above its part", disc(layer(length=13, top=0x6000)), refused(3, 5, 0x60))
case("discovery layer length one above its part", disc(layer(length=13)), refused(16, 5, 13))
case("discovery layer length one below its part", disc(layer(length=11)), refused(16, 5, 11))
case("discovery layer length 0", disc(layer(length=0)), refused(16, 5, 0))
case("discovery layer length 1033, and not its part's, vector 0", disc(layer(length=1033, vector=0)), refused(16, 5, 1033))
case("discovery layer vector 0", disc(layer(vector=0)), refused(4, 5, 0))
case("discovery layer vector 2", disc(layer(vector=2)), refused(4, 5, 2))
case("(o) discovery layer length 1032", disc(layer(range(512))), read_disc(range(512)))
case("(o) discovery layer length 1033", disc(layer(range(512), tail=b"\0")), refused(5, 5, 1033))
case("(o) discovery layer length 1031", disc(layer(range(511), tail=b"\0")), read_disc(range(511)))
case("page equal to last page", disc(layer(page=3, last=3)), read_disc(page=3, last=3))
case("page above last page", disc(layer(page=4, last=3)), refused(11, 5))
case("universes rising by one from 0", disc(layer((0, 1))), read_disc((0, 1)))
case("universes equal", disc(layer((5, 5))), refused(12, 6, 5))
case("universes falling", disc(layer((5, 9, 3, 1))), refused(12, 6, 3))
case("universe 65535", disc(layer((65534, 65535))), read_disc((65534, 65535)))
