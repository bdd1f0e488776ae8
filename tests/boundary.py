"""The shared library from Python, with nothing in between: every function of the header file once or more, through ctypes.

Its one argument is the library's path. It writes one line a failure and "boundary: ok" without any."""
import ctypes
import itertools
import sys
from ctypes import POINTER, Structure, byref, c_size_t, c_uint8, c_uint16, c_uint32, c_uint64


class Planned(Structure):
    _fields_ = [("page", c_uint8), ("scope", c_uint8), ("host_generation", c_uint8), ("available", c_uint8),
                ("controller_generation", c_uint8), ("bad_field", c_uint8), ("bad_byte", c_uint16), ("oui", c_uint32),
                ("last", c_uint32 * 4), ("reason", c_uint8 * 128), ("chunks", c_uint32)]


class State(Structure):
    _fields_ = [("phase", c_uint8), ("page", c_uint8), ("create", c_uint8), ("area", c_uint8), ("caps", c_uint8),
                ("generation", c_uint8), ("zero", c_uint8 * 2), ("chunk", c_uint32), ("attempts", c_uint32), ("attempt", c_uint32),
                ("at", c_uint32), ("room", c_uint64), ("count", c_uint64), ("last", c_uint32 * 4)]


class Next(Structure):
    _fields_ = [("kind", c_uint8), ("answer", c_uint8), ("newer", c_uint8), ("bad_field", c_uint8), ("words", c_uint32 * 5),
                ("count", c_uint64)]


class Record(Structure):
    _fields_ = [("caps", c_uint8), ("host_scope", c_uint8), ("controller_scope", c_uint8), ("host_generation", c_uint8),
                ("controller_generation", c_uint8), ("available", c_uint8), ("notice", c_uint8), ("zero", c_uint8), ("oui", c_uint32),
                ("host_last", c_uint32 * 4), ("controller_last", c_uint32 * 4), ("host_reason", c_uint8 * 128),
                ("controller_reason", c_uint8 * 128)]


class Sheet(Structure):
    _fields_ = [("mark", c_uint8 * 8), ("runs", c_uint64 * 8), ("blocks", c_uint64), ("commands", c_uint64), ("failed", c_uint64),
                ("check", c_uint64)]


class Mean(Structure):
    _fields_ = [("given", c_uint8), ("zero", c_uint8 * 7), ("whole", c_uint64), ("rest", c_uint64)]


BYTES, WORDS = POINTER(c_uint8), c_uint32 * 5
library = ctypes.CDLL(sys.argv[1])
failures = 0


def function(name, result, *arguments):
    found = getattr(library, "bumbazeel_" + name)
    found.restype, found.argtypes = result, arguments
    return found


plan = function("plan", c_uint8, c_uint8, c_uint8, c_uint8, c_uint32, c_size_t, BYTES, c_size_t, POINTER(Planned))
field_byte = function("field_byte", c_uint16, c_uint8, c_uint8)
words = function("words", c_uint8, c_uint8, c_uint8, c_uint8, c_uint8, c_uint32, c_uint32, WORDS)
setup = function("setup", c_uint8, c_uint8, c_uint8, c_uint8, c_uint8, c_uint32, c_uint32, c_size_t, POINTER(State), POINTER(Next))
step = function("step", c_uint8, POINTER(State), c_uint8, BYTES, c_size_t, BYTES, c_size_t, POINTER(Next))
fresh = function("fresh", c_uint8, c_uint8, c_uint32, c_uint8, c_uint8, POINTER(Record))
command = function("command", c_uint8, POINTER(Record), BYTES, c_size_t, BYTES, c_size_t, c_uint32 * 4, BYTES, c_size_t, BYTES, c_size_t,
                   WORDS, BYTES, c_size_t, POINTER(c_uint8))
capture = function("capture", c_uint8, POINTER(Record), BYTES, c_size_t, BYTES, c_size_t, c_uint32 * 4, BYTES, c_size_t, BYTES, c_size_t)
drop = function("drop", c_uint8, POINTER(Record), BYTES, c_size_t, BYTES, c_size_t)
new_sheet = function("new_sheet", None, POINTER(Sheet))
enter = function("enter", c_uint8, POINTER(Sheet), c_uint8, c_uint64, c_uint64, c_uint64)
add = function("add", c_uint8, POINTER(Sheet), POINTER(Sheet))
mean = function("mean", c_uint8, POINTER(Sheet), POINTER(Mean))
class_of = function("class", c_uint8, c_uint8)
status_of = function("status", c_uint16, c_uint8)


def same(what, wanted, got):
    global failures
    if wanted != got:
        failures += 1
        print(f"boundary.py: {what}: wanted {wanted}, got {got}")


same("sizes", (160, 56, 32, 300, 104, 24), tuple(map(ctypes.sizeof, (Planned, State, Next, Record, Sheet, Mean))))
same("places in what a plan gives", [0, 1, 2, 3, 4, 5, 6, 8, 12, 28, 156], [getattr(Planned, name).offset for name, _ in Planned._fields_])
same("the place of an ending's field at fault", 3, Next.bad_field.offset)
same("places in a sheet", [0, 8, 72, 80, 88, 96], [getattr(Sheet, name).offset for name, _ in Sheet._fields_])
same("places in a mean", [0, 1, 8, 16], [getattr(Mean, name).offset for name, _ in Mean._fields_])
classes = [class_of(page) for page in range(256)]
same("classes", [42, 64, 64, 86], [classes.count(c) for c in range(4)])
same("statuses", [0, 2, 0x109] + [0xFFFF] * 253, [status_of(answer) for answer in range(256)])

built = WORDS()
same("words", (0, [0x007F8707, 0, 0, 0, 0]), (words(7, 1, 3, 1, 0, 1, built), list(built)))
same("refused words", (13, [0] * 5), (words(8, 1, 0, 1, 0, 1, built), list(built)))

BLOCK, BLOCKS, EVERY_CAP, EXTENDED, TELEMETRY = 512, 4, 31, 1, 2
record, host, controller = Record(), (c_uint8 * (BLOCKS * BLOCK))(), (c_uint8 * (BLOCKS * BLOCK))()
contents, reason = bytes(i * 7 + i // BLOCK & 255 for i in range(BLOCKS * BLOCK)), b"reason".ljust(128, b"\0")
candidate = ((c_uint32 * 4)(1, 2, 3, 4), (c_uint8 * len(contents))(*contents), len(contents), (c_uint8 * 128)(*reason), 128)
same("a record that no controller has", 4, fresh(32, 0, 1, 1, byref(record)))
same("a fresh record", (0, 31, 0x123456), (fresh(EVERY_CAP, 0x123456, 1, 2, byref(record)), record.caps, record.oui))
same("a capture", (0, 1, [1, 2, 3, 4], contents),
     (capture(byref(record), host, len(host), controller, len(controller), *candidate), record.available, list(record.controller_last),
      bytes(controller)))

header, planned = (c_uint8 * BLOCK)(), Planned()
state, then, copy, data, identifier_class = State(), Next(), (c_uint8 * (6 * BLOCK))(*[5] * (6 * BLOCK)), (c_uint8 * (3 * BLOCK))(), c_uint8(9)
same("a setup", 0, setup(8, 0, 4, EVERY_CAP, 3, 1, len(copy), byref(state), byref(then)))
listed = []
while then.kind == 0 and len(listed) < 10:
    listed.append(list(then.words)[:3])
    size = ((then.words[0] >> 16) + 1) * 4
    answer = command(byref(record), host, len(host), controller, len(controller), *candidate, then.words, data, len(data),
                     byref(identifier_class))
    same("a command", (0, 0), (answer, identifier_class.value))
    if listed[-1][2] == 0 and len(listed) == 1:
        same("a plan", (0, 8, 2, 1, 0x123456, [1, 2, 3, 4], reason, 2),
             (plan(8, 4, EVERY_CAP, 3, len(copy), data, BLOCK, byref(planned)), planned.page, planned.scope, planned.available, planned.oui,
              list(planned.last), bytes(planned.reason), planned.chunks))
    step(byref(state), answer == 0, data, size, copy, len(copy), byref(then))
same("the commands", [[0x007F8008, 0, 0], [0x017F8008, 0, 512], [0x007F8008, 0, 2048], [0x007F8008, 0, 0], [0x007F0008, 0, 0]], listed)
same("the chunks that were planned", planned.chunks, sum(offset > 0 for _, _, offset in listed))
same("the ending", (1, 0, 0, 0, 5), (then.kind, then.answer, then.newer, then.bad_field, then.count))
same("the copy", contents + bytes(2 * BLOCK), bytes(copy))
same("a step after the ending, with no data", (2, 14), (step(byref(state), 1, None, 0, copy, len(copy), byref(then)), then.answer))

stores = (host, len(host), controller, len(controller))
short = (host, len(host) - 1, controller, len(controller))
created = command(byref(record), *stores, *candidate, WORDS(0x007F8107), data, len(data), byref(identifier_class))
same("a create", (0, 1, [1, 2, 3, 4], reason), (created, record.host_generation, list(record.host_last), bytes(record.host_reason)))
before, held = bytes(record), (bytes(host), bytes(controller))
same("a drop with a short store", (4, before), (drop(byref(record), *short), bytes(record)))
same("a drop with no host store", (4, before), (drop(byref(record), None, 0, controller, len(controller)), bytes(record)))
record.zero = 1
damaged = bytes(record)
same("a drop on a damaged record", (4, damaged), (drop(byref(record), *stores), bytes(record)))
record.zero = 0
dropped = before[:12] + bytes(16) + before[28:44] + bytes(128) + before[172:]
same("a drop", (0, dropped), (drop(byref(record), *stores), bytes(record)))
same("a drop with no stores", (0, dropped), (drop(byref(record), None, 0, None, 0), bytes(record)))
same("the stores after drops", held, (bytes(host), bytes(controller)))


def dropped_run(chunk, dropped_after):
    """Collects areas (2,2,2,0) and drops them after so many commands: commands, refusals, ending, count and copy."""
    fresh(EVERY_CAP & ~4, 0, 1, 1, byref(record))
    record.host_last[:] = [2, 2, 2, 0]
    copy = (c_uint8 * (2 * BLOCK))(*[5] * (2 * BLOCK))
    setup(7, 0, 3, record.caps, chunk, 2, len(copy), byref(state), byref(then))
    sent = refused = 0
    while then.kind == 0 and sent < 10:
        size = ((then.words[0] >> 16) + 1) * 4
        answer = command(byref(record), *stores, *candidate, then.words, data, len(data), byref(identifier_class))
        step(byref(state), answer == 0, data, size if answer == 0 else 0, copy, len(copy), byref(then))
        sent, refused = sent + 1, refused + (answer != 0)
        if sent == dropped_after:
            same("a drop in a run", 0, drop(byref(record), *stores))
    return sent, refused, then.kind, then.answer, then.count, bytes(copy)


def limited(attempts, count=1):
    """Setup's answer to so many attempts, and a step's to a state in the last of them with so many commands sent, whose header is refused."""
    setup(8, 0, 4, EVERY_CAP, 3, attempts, 0, byref(state), byref(then))
    by_setup = then.answer
    setup(8, 0, 4, EVERY_CAP, 3, 1, 0, byref(state), byref(then))
    state.attempts = state.attempt = attempts
    state.count = count
    step(byref(state), 0, None, 0, None, 0, byref(then))
    return by_setup, then.answer, then.count


same("65,535 attempts", (0, 12, 1), limited(65535))
same("the most commands of 65,535 attempts", (0, 12, 68718493697), limited(65535, 68718493697))
same("one more", (0, 13, 0), limited(65535, 68718493698))
same("65,536 attempts", (13, 13, 0), limited(65536))
same("no attempts", (13, 13, 0), limited(0))
same("H D c1 c2! h h", (5, 1, 1, 0, 5, bytes(2 * BLOCK)), dropped_run(1, 1))
same("H D c1 h h", (4, 0, 1, 0, 4, bytes(2 * BLOCK)), dropped_run(2, 1))
same("H c1 c2 D h h", (5, 0, 1, 0, 5, bytes(2 * BLOCK)), dropped_run(1, 3))

LENGTH, IDENTIFIER, AREA_2, AREA_3, AREA_4, SCOPE, AVAILABLE, EMPTY = FIELDS = range(1, 9)
BYTES_OF = {7: [0, 0, 0, 10, 12, 16, 380, 382, 12], 8: [0, 0, 0, 10, 12, 16, 381, 382, 12]}
# last blocks by the areas at fault in them: with DA4S and without it, and where area 3 has no block with it and without it
AREAS = {
    (): ((1, 2, 3, 4), (1, 2, 3, 0), (0, 0, 0, 0), (0, 0, 0, 0)),
    (AREA_2,): ((3, 2, 2, 2), (3, 2, 2, 0), (1, 0, 0, 0), (1, 0, 0, 0)),
    (AREA_3,): ((1, 3, 2, 2), (1, 3, 2, 0), (0, 1, 0, 0), (0, 1, 0, 0)),
    (AREA_4,): ((1, 2, 3, 2), (1, 2, 3, 3), (0, 0, 0, 1), (0, 0, 0, 1)),
    (AREA_2, AREA_3): ((5, 3, 1, 1), (5, 3, 1, 0), (2, 1, 0, 0), (2, 1, 0, 0)),
    (AREA_2, AREA_4): ((3, 2, 2, 1), (3, 2, 2, 2), (1, 0, 0, 1), (1, 0, 0, 1)),
    (AREA_3, AREA_4): ((1, 3, 2, 1), (1, 3, 2, 2), (0, 1, 0, 1), (0, 1, 0, 1)),
    (AREA_2, AREA_3, AREA_4): ((5, 3, 1, 0), (5, 3, 1, 1), (2, 1, 0, 1), (2, 1, 0, 1)),
}
# last blocks at their limits, and the field at fault with DA4S and without it
LIMITS = (
    ((0, 0, 1, 0), AREA_4, 0),
    ((0, 0, 1, 1), 0, AREA_4),
    ((0, 0, 1, 1048576), 0, AREA_4),
    ((0, 0, 1, 1048577), AREA_4, AREA_4),
    ((0, 0, 1, 0x01000000), AREA_4, AREA_4),
    ((0, 0, 0, 1048577), AREA_4, AREA_4),
    ((0, 0, 65535, 65534), AREA_4, AREA_4),
    ((65535, 65535, 65535, 65535), 0, AREA_4),
    ((2, 3, 1, 1), AREA_3, AREA_3),
)


def shown(page, identifier, last, scope, available):
    """A header's 512 bytes. Where the other page has its scope stands what would be none."""
    blocks = b"".join(number.to_bytes(2, "little") for number in last[:3]) + bytes(2) + last[3].to_bytes(4, "little")
    scopes = bytes([scope, 3] if page == 7 else [3, scope])
    return bytes([identifier]) + bytes(7) + blocks + bytes(360) + scopes + bytes([available, 9]) + reason


def with_faults(page, da4s, faults):
    """A header of a page in which just these are at fault, but for the length."""
    areas = AREAS[tuple(fault for fault in faults if AREA_2 <= fault <= AREA_4)]
    last = areas[2 * (EMPTY in faults) + 1 - da4s]
    identifier, scope = 15 - page if IDENTIFIER in faults else page, 3 if SCOPE in faults else 2
    return shown(page, identifier, last, scope, 1 if EMPTY in faults else 2 if AVAILABLE in faults else 0)


def planned_from(content, page, area, caps, chunk, room):
    """A plan's answer and number of chunks, and besides, with 7, its field at fault and byte; all else is zeros but with 0."""
    ctypes.memset(byref(planned), 0xEE, ctypes.sizeof(planned))
    lent = (c_uint8 * len(content))(*content)
    answer = plan(page, area, caps, chunk, room, lent if content else None, len(content), byref(planned))
    told = bytes(planned)
    same("the header after a plan", content, bytes(lent))
    same(f"what is told with {answer}", (answer != 0, answer != 7), (told[:5] + told[8:] == bytes(157), told[5:8] == bytes(3)))
    return answer, planned.chunks


def found(page, caps, content):
    """The answer, field at fault and byte of the largest plan: of the greatest area, a block a command or in an old run 0, into the largest copy."""
    answer, _ = planned_from(content, page, 4 if caps & 12 == 12 else 3, caps, caps & EXTENDED, 536870912)
    return answer, planned.bad_field, planned.bad_byte


def judged(page, da4s, content, chunk=None):
    """What a collection makes of a header: of its first one or, in its last attempt, of one after a chunk that came (1) or was refused (0).
    Of DA4S and ETDAS the drive has one. A first header is answered as a plan from it is."""
    copy, opening = (c_uint8 * BLOCK)(*[5] * BLOCK), shown(page, page, (1, 1, 1, da4s), 2, 1)
    caps = EVERY_CAP & ~(8 if da4s else 4)
    setup(page, 0, 1, caps, 1, 2, BLOCK, byref(state), byref(then))
    for data in [] if chunk is None else [opening, reason * 4 if chunk else b""]:
        step(byref(state), len(data) > 0, (c_uint8 * len(data))(*data), len(data), copy, BLOCK, byref(then))
        same("a step before a later header", (0, 0), (then.kind, then.bad_field))
        state.attempt = 2
    step(byref(state), 1, (c_uint8 * len(content))(*content), len(content), copy, BLOCK, byref(then))
    if then.answer == 7:
        same("the copy after a bad header", bytes(BLOCK), bytes(copy))
    if chunk is None and len(content) == BLOCK:
        answer, chunks = planned_from(content, page, 1, caps, 1, BLOCK)
        same("a first header and a plan", (then.answer, then.bad_field, chunks), (answer, planned.bad_field, state.phase == 1))
    return then.kind, then.answer, then.bad_field


def can_be(page, faults):
    """07h may be available but empty, and TCDA is not 1 and over 1."""
    return EMPTY not in faults or (page == 8 and AVAILABLE not in faults)


for page, caps in itertools.product((7, 8), (EVERY_CAP, EVERY_CAP & ~8, EVERY_CAP & ~4, EVERY_CAP & ~EXTENDED, TELEMETRY)):
    da4s = caps >> 2 & 1
    every_set = itertools.chain.from_iterable(itertools.combinations(FIELDS, count) for count in range(9))
    for faults in (faults for faults in every_set if can_be(page, faults)):
        content, first = with_faults(page, da4s, faults), min(faults, default=0)
        due = (7 if first else 11 if page == 8 else 0, first, BYTES_OF[page][first])  # a good one shows no data available
        for length in (511, 513) if LENGTH in faults else (512,):
            same(f"{page:02X}h, caps {caps}, faults {faults}, {length} bytes", due, found(page, caps, (content + b"7")[:length]))
        if LENGTH not in faults and first:
            same(f"{page:02X}h, DA4S {da4s}, faults {faults} in a collection", [(1, 7, first)] * 3,
                 [judged(page, da4s, content, chunk) for chunk in (None, 1, 0)])
    same("no bytes", (7, LENGTH, 0), found(page, caps, b""))
    neither = shown(9, 9, (0, 0, 0, 0), 2, 0)
    same("a header as another page", [(13, 0, 0)] * 3, [found(9, caps, content) for content in (neither, neither + b"7", b"")])
    for last, with_da4s, without in LIMITS:
        field = with_da4s if da4s else without
        out_of_reach = not caps & EXTENDED and last[3 if caps & 12 == 12 else 2] > 31
        same(f"{page:02X}h, caps {caps}, last blocks {last}", (7 if field else 19 if out_of_reach else 0, field, BYTES_OF[page][field]),
             found(page, caps, shown(page, page, last, 2, 1)))
    same(f"{page:02X}h, available but empty", 0 if page == 7 else EMPTY, found(page, caps, shown(page, page, (0, 0, 0, 0), 2, 1))[1])
    good, full = shown(page, page, (1, 1, 1, da4s), 2, 1), shown(page, page, (2, 2, 2, 2 * da4s), 2, 1)
    empty = shown(page, page, (0, 0, 0, 0), 2, 0)
    on_07h = page == 7
    same("first headers that are good", [(0, 0, 0), (1, 8, 0), (0, 0, 0) if on_07h else (1, 11, 0)],
         [judged(page, da4s, content) for content in (good, full, empty)])
    same("later headers that are good", [(1 if on_07h else 0, 0, 0), (1, 9, 0), (1, 9 if on_07h else 10, 0)],
         [judged(page, da4s, content, 1) for content in (good, full, empty)])
    same("a match after a refused chunk", (1, 12, 0), judged(page, da4s, good, 0))
    if page == 8 and judged(page, da4s, good, 1) == (0, 0, 0):
        step(byref(state), 1, header, BLOCK, data, BLOCK, byref(then))
        same("an acknowledgement of zeros, which is not judged", (1, 0, 0), (then.kind, then.answer, then.bad_field))
    same("headers that do not fit", [(2, 15, 0)] * 2, [judged(page, da4s, content) for content in (good[:511], good + b"7")])
# all is wrong at first, and is mended one after the other: setup's limits, 6, 7, 11, 8
no_area_4 = {"page": 8, "area": 4, "caps": EVERY_CAP & ~8, "chunk": 2, "room": BLOCK}
wrong, nothing, large = (shown(8, 8, (2, 3, 3, 3), scope, available) for scope, available in ((3, 0), (2, 0), (2, 1)))
for name, values in {"page": (0, 6, 9, 24, 255), "area": (0, 5, 255), "caps": (1, 2, 20, 29, 30, 32, 63, 255), "chunk": (0, 8193, 65537, 2 ** 32 - 1),
                     "room": (1, 511, 513, 536870913, 536871424, 2 ** 32, 2 ** 64 - 512, 2 ** 64 - 1)}.items():
    for value in values:
        same(f"everything wrong, {name} {value}", (13, 0), planned_from(wrong, **{**no_area_4, name: value}))
same("area 4 without ETDAS, without DA4S", [(6, 0)] * 2, [planned_from(wrong, **{**no_area_4, "caps": EVERY_CAP & ~cap}) for cap in (8, 4)])
same("area 4 without ETDAS, from no bytes", (6, 0), planned_from(b"", **no_area_4))
with_area_4 = {**no_area_4, "caps": EVERY_CAP}
same("7, 11, 8", [(7, 0), (11, 0), (8, 0)], [planned_from(content, **with_area_4) for content in (wrong, nothing, large)])
same("8 up to the room, then chunks", [(8, 0), (8, 0), (0, 2), (0, 2), (0, 2)],
     [planned_from(large, **{**with_area_4, "room": room}) for room in (0, 2 * BLOCK, 3 * BLOCK, 4 * BLOCK, 536870912)])
same("the chunks of each area", [(0, 1), (0, 2), (0, 2), (0, 2)], [planned_from(large, 8, area, EVERY_CAP, 2, 3 * BLOCK) for area in (1, 2, 3, 4)])
same("the chunks of 1,048,576 blocks", [(0, 1048576), (0, 524288), (0, 349526), (0, 129), (0, 128)],
     [planned_from(shown(8, 8, (0, 0, 1, 1048576), 2, 1), 8, 4, EVERY_CAP, chunk, 536870912) for chunk in (1, 2, 3, 8191, 8192)])
same("no blocks", (0, 0), planned_from(shown(7, 7, (0, 0, 0, 0), 2, 0), 7, 4, EVERY_CAP, 1, 0))
same("bytes of fields", [BYTES_OF[7 if page == 7 else 8] + [0] * 247 for page in range(256)],
     [[field_byte(page, field) for field in range(256)] for page in range(256)])


# ---- old runs, of drives without extended data: header and blocks together from offset 0, at most 31 blocks
def old_run(page, room, attempts, *completions):
    """An old run of area 3 with these completions, None for a refusal: the words of its commands, what follows, the attempt and the copy."""
    copy = (c_uint8 * (room * BLOCK))(*[5] * (room * BLOCK))
    setup(page, 0, 3, TELEMETRY, 0, attempts, len(copy), byref(state), byref(then))
    listed = [list(then.words)]
    for content in completions:
        data = content or b""
        step(byref(state), content is not None, (c_uint8 * len(data))(*data), len(data), copy, len(copy), byref(then))
        listed += [list(then.words)] if then.kind == 0 else []
    same("a field at fault", then.answer == 7, then.bad_field > 0)
    return [cdw10 for cdw10, *rest in listed if not any(rest)], (then.kind, then.answer, then.count), state.attempt, bytes(copy)


def old_header(page, blocks, generation=9, available=1):
    """A header of 512 bytes with areas of so many blocks. A page's own generation is byte 381 on 07h and byte 383 on 08h."""
    content = bytearray(shown(page, page, (blocks, blocks, blocks, 0), 2, available))
    content[381 if page == 7 else 383] = generation
    return bytes(content)


area = bytes(i * 13 + i // BLOCK & 255 for i in range(40 * BLOCK))
for page in (7, 8):
    asked, acknowledged = 0x007F8000 | page, [0x007F0008] if page == 8 else []
    for blocks, room, middle in ((1, 1, 0x00FF8000), (1, 9, 0x00FF8000), (2, 2, 0x017F8000), (30, 30, 0x0F7F8000), (31, 31, 0x0FFF8000),
                                 (31, 40, 0x0FFF8000)):
        first, blocks_of, words_due = old_header(page, blocks), area[:blocks * BLOCK], [asked, middle | page, asked] + acknowledged
        # what the header of the middle command shows is not judged
        for unjudged in (first, old_header(page, blocks, 10), old_header(page, blocks, 9, 0), old_header(page, 32), bytes(BLOCK), b"\xff" * BLOCK):
            same(f"{page:02X}h, an old run of {blocks} blocks",
                 (words_due, (1, 0, len(words_due)), 1, blocks_of + bytes((room - blocks) * BLOCK)),
                 old_run(page, room, 1, first, unjudged + blocks_of, first, *[first] * len(acknowledged)))
        same(f"{page:02X}h, the middle command of {blocks} blocks refused, then a match", (words_due[:3], (1, 12, 3), 1, bytes(room * BLOCK)),
             old_run(page, room, 2, first, None, first))
    for blocks, room, answer in ((31, 30, 8), (20, 10, 8), (1, 0, 8), (32, 40, 19), (32, 32, 19), (32, 31, 19), (33, 10, 19), (32, 0, 19)):
        same(f"{page:02X}h, an old run of {blocks} blocks into {room}", ([asked], (1, answer, 1), 1, bytes(room * BLOCK)),
             old_run(page, room, 2, old_header(page, blocks)))
        same(f"{page:02X}h, a plan of {blocks} blocks into {room}", (answer, 0),
             planned_from(old_header(page, blocks), page, 3, TELEMETRY, 0, room * BLOCK))
    same(f"{page:02X}h, plans of 1 to 31 blocks", [(0, 1)] * 31,
         [planned_from(old_header(page, blocks), page, 3, TELEMETRY, 0, 31 * BLOCK) for blocks in range(1, 32)])
    # 9, 19, 8 at a later header, the last two in the next attempt's number; after a refused middle command too
    before = (old_header(page, 2), old_header(page, 2) + area[:2 * BLOCK])
    for middle in (before[1], None):
        for attempts, blocks, due in ((1, 32, (9, 1)), (1, 2, (9, 1)), (2, 32, (19, 2)), (2, 255, (19, 2)), (2, 31, (8, 2))):
            same(f"{page:02X}h, {blocks} blocks at a later header of {attempts} attempts",
                 ([asked, 0x017F8000 | page, asked], (1, due[0], 3), due[1], bytes(4 * BLOCK)),
                 old_run(page, 4, attempts, before[0], middle, old_header(page, blocks, 10)))
            same("the generation and last blocks that an ended state keeps", (9, [2, 2, 2, 0]), (state.generation, list(state.last)))
        same(f"{page:02X}h, the next attempt", ([asked, 0x017F8000 | page, asked, 0x01FF8000 | page], (0, 0, 0), 2),
             old_run(page, 4, 2, before[0], middle, old_header(page, 3))[:3])
    # 7 and 11 or 10 before 19
    scope, none = shown(page, page, (32, 32, 32, 0), 3, 0), old_header(page, 32, 10, 0)
    same(f"{page:02X}h, block 32 at bad headers", (7, 7), (old_run(page, 4, 2, scope)[1][1], old_run(page, 4, 2, *before, scope)[1][1]))
    same(f"{page:02X}h, block 32 at headers without data available", (19, 19) if page == 7 else (11, 10),
         (old_run(page, 4, 2, none)[1][1], old_run(page, 4, 2, *before, none)[1][1]))
before = (old_header(8, 2), old_header(8, 2) + area[:2 * BLOCK], old_header(8, 2))
same("captures acknowledged unread", [0, 1], [old_run(8, 2, 1, *before, old_header(8, 3, generation)) and then.newer for generation in (9, 10)])
same("07h, an old run of no blocks", ([0x007F8007] * 2, (1, 0, 2), 1, bytes(4 * BLOCK)), old_run(7, 4, 1, *[old_header(7, 0)] * 2))
same("a plan of no blocks", (0, 0), planned_from(old_header(7, 0), 7, 3, TELEMETRY, 0, 0))
same("plans in order: 13, 6, 7, 11, 19, 8, 0", [13, 6, 7, 11, 19, 8, 0],
     [planned_from(content, 8, 4, caps, chunk, room * BLOCK)[0] for content, caps, chunk, room in (
         (shown(8, 8, (1, 1, 1, 32), 3, 0), 22, 1, 1), (shown(8, 8, (1, 1, 1, 32), 3, 0), 22, 0, 1), (shown(8, 8, (1, 1, 1, 32), 3, 0), 30, 0, 1),
         (shown(8, 8, (1, 1, 1, 32), 2, 0), 30, 0, 1), (shown(8, 8, (1, 1, 1, 32), 2, 1), 30, 0, 1), (shown(8, 8, (1, 1, 1, 31), 2, 1), 30, 0, 1),
         (shown(8, 8, (1, 1, 1, 31), 2, 1), 30, 0, 31))])
same("1,000 blocks with extended data", (0, 1), planned_from(shown(8, 8, (1, 1, 1, 1000), 2, 1), 8, 4, EVERY_CAP, 8192, 1000 * BLOCK))


def begun(caps, chunk, area=3):
    """A setup's answer, and what its state keeps of capabilities and chunk."""
    setup(7, 0, area, caps, chunk, 1, BLOCK, byref(state), byref(then))
    return then.answer, state.caps, state.chunk


same("setups with extended data and without",
     [(0, 2, 0), (13, 2, 1), (13, 2, 31), (13, 2, 8192), (13, 3, 0), (0, 3, 1), (0, 3, 8192), (13, 0, 0), (13, 0, 0)],
     [begun(*arguments) for arguments in ((2, 0), (2, 1), (2, 31), (2, 8192), (3, 0), (3, 1), (3, 8192), (0, 0), (34, 0))])
same("a plan with a sixth capability", (13, 0), planned_from(old_header(7, 1), 7, 3, 34, 0, BLOCK))
same("area 2 in reach, area 3 not", [(0, 1), (19, 0)],
     [planned_from(shown(7, 7, (0, 31, 32, 0), 2, 1), 7, area, TELEMETRY, 0, 40 * BLOCK) for area in (2, 3)])
setup(7, 1, 3, 18, 0, 1, BLOCK, byref(state), byref(then))
same("an old run's first command with create and MCDAS", [0x007F8707, 0, 0, 0, 0], list(then.words))
same("area 4 without extended data", [6, 6, 6, 0, 13], [begun(caps, chunk, 4)[0] for caps, chunk in ((2, 0), (6, 0), (10, 0), (14, 0), (14, 1))])


def lent_state(at, blocks, data_blocks, ok=1):
    """A step's answer in an old run whose middle command is awaited, with so many blocks of data and these numbers in the state."""
    old_run(7, 40, 1, old_header(7, 31))
    state.at, state.last[2] = at, blocks
    copy, data = (c_uint8 * (40 * BLOCK))(*[5] * (40 * BLOCK)), (c_uint8 * (data_blocks * BLOCK))()
    before = bytes(state), bytes(copy)
    step(byref(state), ok, data, len(data), copy, len(copy), byref(then))
    if then.kind == 2:
        same("state and copy after a refusal", before, (bytes(state), bytes(copy)))
    return then.kind, then.answer


same("states of an old run", [(0, 0), (0, 0), (2, 13), (2, 13), (2, 13), (2, 13), (2, 13)],
     [lent_state(at, blocks, blocks + 1) for at, blocks in ((1, 31), (1, 1), (2, 31), (0, 31), (31, 31), (1, 32), (1, 0))])
for phase in range(6):
    refusals = []
    for field, value in (("last", 32), ("chunk", 1), ("caps", 3)):
        old_run(7, 40, 1, old_header(7, 31))
        state.phase, state.at = phase, phase == 1
        if field == "last":
            state.last[2] = value
        else:
            setattr(state, field, value)
        step(byref(state), 0, None, 0, (c_uint8 * (40 * BLOCK))(), 40 * BLOCK, byref(then))
        refusals.append((then.kind, then.answer))
    same(f"states of an old run in phase {phase}: block 32, a chunk, extended data", [(2, 14 if phase == 5 else 13)] * 3, refusals)
same("data of an old run", [(2, 15), (2, 15), (2, 15), (2, 15), (0, 0)], [lent_state(1, 31, *sent) for sent in ((31,), (33,), (0,), (32, 0), (0, 0))])

# the library's own controller without extended data: 31 blocks of 08h, and the acknowledgement
fresh(TELEMETRY, 0, 1, 2, byref(record))
store, buffer, copy = ((c_uint8 * (count * BLOCK))() for count in (31, 32, 33))
captured = ((c_uint32 * 4)(0, 0, 31, 31), (c_uint8 * (31 * BLOCK))(*area[:31 * BLOCK]), 31 * BLOCK, *candidate[3:])
same("a capture of 31 blocks", 0, capture(byref(record), None, 0, store, len(store), *captured))
setup(8, 0, 3, record.caps, 0, 1, len(copy), byref(state), byref(then))
listed = []
while then.kind == 0 and len(listed) < 10:
    listed.append(list(then.words))
    size = ((then.words[0] >> 16) + 1) * 4
    same("a command without extended data", 0,
         command(byref(record), None, 0, store, len(store), *captured, then.words, buffer, len(buffer), byref(identifier_class)))
    step(byref(state), 1, buffer, size, copy, len(copy), byref(then))
same("the commands of an old run", [[cdw10, 0, 0, 0, 0] for cdw10 in (0x007F8008, 0x0FFF8008, 0x007F8008, 0x007F0008)], listed)
same("its ending", (1, 0, 0, 4), (then.kind, then.answer, then.newer, then.count))
same("its copy, and the page that was acknowledged", (area[:31 * BLOCK] + bytes(2 * BLOCK), 0), (bytes(copy), record.available))

# ---- the month's sheet
MARK, FULL, ENDINGS = b"BZSHEET1", 2 ** 64 - 1, (0, 7, 8, 9, 10, 11, 12, 19)
FIVE_RUNS = ((0, 7, 6, 0), (9, 0, 21, 5), (0, 0x0102030405060708, 258, 1), (19, 0, 1, 0), (0, 0, 2, 0))
FIVE_RUNS_BYTES = bytes.fromhex("425a534845455431 0300000000000000 0000000000000000 0000000000000000 0100000000000000 0000000000000000"
                                "0000000000000000 0000000000000000 0100000000000000 0f07060504030201 2001000000000000 0600000000000000"
                                "7c62594d49485632")


def mended(content):
    """A sheet's bytes with a check that fits the others: the twelve numbers before it, added."""
    return content[:96] + (sum(int.from_bytes(content[at:at + 8], "little") for at in range(0, 96, 8)) & FULL).to_bytes(8, "little")


def sheet_of(runs, blocks, commands, failed):
    """The bytes of a sheet with these totals."""
    return mended(MARK + b"".join(total.to_bytes(8, "little") for total in (*runs, blocks, commands, failed)))


def entered(content, *runs):
    """The answers to runs that are entered one after the other into a sheet of these bytes, and its bytes after them."""
    sheet = Sheet.from_buffer_copy(content)
    return [enter(byref(sheet), *run) for run in runs], bytes(sheet)


def added(content, other):
    """The answer to an addition, and the bytes of both sheets after it."""
    sheet, lent = Sheet.from_buffer_copy(content), Sheet.from_buffer_copy(other)
    return add(byref(sheet), byref(lent)), bytes(sheet), bytes(lent)


def mean_of(content):
    """The answer to a question for the mean, whether it is given, its two parts, and what else was written: nothing but zeros."""
    sheet, told = Sheet.from_buffer_copy(content), Mean(0xEE, (c_uint8 * 7)(*[0xEE] * 7), FULL, FULL)
    answer = mean(byref(sheet), byref(told))
    same("a sheet after a question for its mean", content, bytes(sheet))
    same("the zero bytes of a mean", bytes(7), bytes(told.zero))
    return answer, told.given, told.whole, told.rest


def is_damaged(content):
    """Whether a sheet gets 13 wherever it is lent, and whether it gets 0 everywhere; bytes stay as they were with 13."""
    answers = [entered(content, (0, 0, 0, 0)), added(content, FIVE_RUNS_BYTES)[:2], (added(FIVE_RUNS_BYTES, content)[0], content)]
    given = [answers[0][0][0], answers[1][0], answers[2][0], mean_of(content)[0]]
    if given == [13] * 4:
        same("a damaged sheet's bytes", ([content] * 2, FIVE_RUNS_BYTES), ([answers[0][1], answers[1][1]], added(FIVE_RUNS_BYTES, content)[1]))
        same("a damaged sheet's mean", (13, 0, 0, 0), mean_of(content))
        return True
    return False if given == [0] * 4 else given


begun_sheet = Sheet.from_buffer_copy(b"\xee" * 104)
new_sheet(byref(begun_sheet))
NO_RUNS = bytes(begun_sheet)
same("a sheet with no run entered", MARK + bytes(88) + MARK, NO_RUNS)
same("its mean", (0, 0, 0, 0), mean_of(NO_RUNS))
for order in itertools.permutations(FIVE_RUNS):
    same(f"a sheet of {order}", ([0] * 5, FIVE_RUNS_BYTES), entered(NO_RUNS, *order))
    parts = [entered(NO_RUNS, *part)[1] for part in (order[:2], order[2:])]
    same(f"two sheets of {order}", (0, FIVE_RUNS_BYTES, parts[1]), added(*parts))
same("the mean of five runs, three of them good", (0, 1, 24207953263460954, 1), mean_of(FIVE_RUNS_BYTES))
every_total_full = sheet_of([FULL] * 8, FULL, FULL, FULL)
for ending in range(256):
    one = [int(ending == named) for named in ENDINGS]
    due = ([0], sheet_of(one, 0, 4, 2)) if any(one) else ([13], NO_RUNS)
    same(f"a run that ended with {ending}", due, entered(NO_RUNS, (ending, 0, 4, 2)))
    same(f"blocks with ending {ending}", ([13], FIVE_RUNS_BYTES) if ending else ([0], entered(NO_RUNS, *FIVE_RUNS, (0, 1, 4, 2))[1]),
         entered(FIVE_RUNS_BYTES, (ending, 1, 4, 2)))
    same(f"ending {ending} on a full sheet", ([20 if any(one) else 13, 13 if ending else 20], every_total_full),
         entered(every_total_full, (ending, 0, 0, 0), (ending, 1, 1, 1)))
for place, ending in enumerate(ENDINGS):
    before = sheet_of([FULL - (place == other) for other in range(8)], FULL, FULL, FULL)
    same(f"the last run that ended with {ending}", ([0, 20], every_total_full), entered(before, (ending, 0, 0, 0), (ending, 0, 0, 0)))
for number in (1, 2, 2 ** 32, 2 ** 63, FULL - 1, FULL):
    before, room = sheet_of([1] * 8, number, number, number), FULL - number
    past = [(0, *(room + (total == place) for total in range(3))) for place in range(3)] + [(7, 0, room + 1, 0), (7, 0, 0, room + 1)]
    same(f"totals of {number} past the limit", ([20] * 5, before), entered(before, *past))
    same(f"totals of {number} up to the limit", ([0, 0, 20], sheet_of([3] + [1] * 7, FULL, FULL, FULL)),
         entered(before, (0, room, room, room), (0, 0, 0, 0), (0, 1, 0, 0)))
    if not room:
        continue
    other = sheet_of([number] * 8, number, number, number)
    same(f"sheets of {number} up to the limit", (0, every_total_full, other), added(sheet_of([room] * 8, room, room, room), other))
    for total in range(11):
        totals = [room + (total == place) for place in range(11)]
        past = sheet_of(totals[:8], *totals[8:])
        same(f"total {total} of sheets of {number} past the limit", [(20, past, other), (20, other, past)], [added(past, other), added(other, past)])
for bit in range(832):
    flipped = bytearray(FIVE_RUNS_BYTES)
    flipped[bit // 8] ^= 1 << bit % 8
    same(f"bit {bit} flipped, and then the check mended", (True, bit < 64), (is_damaged(bytes(flipped)), is_damaged(mended(bytes(flipped)))))
for good, other, blocks, commands, failed in itertools.product((0, 1), (0, 1), (0, 1), (0, 1), (0, 1)):
    for place in range(1, 8):
        runs = [good] + [other * (place == at) for at in range(1, 8)]
        same(f"runs {runs} with {blocks} blocks, {commands} commands and {failed} failed attempts",
             bool((blocks and not good) or ((commands or failed) and not good and not other)), is_damaged(sheet_of(runs, blocks, commands, failed)))
same("no bytes of a sheet", True, is_damaged(bytes(104)))
for blocks, good in itertools.product((0, 1, 7, 10, 2 ** 32, 2 ** 63, FULL - 1, FULL), (1, 2, 3, 10, 2 ** 32 - 1, 2 ** 32, 2 ** 63, FULL - 1, FULL)):
    same(f"the mean of {blocks} blocks and {good} good runs", (0, 1, blocks // good, blocks % good), mean_of(sheet_of([good] + [3] * 7, blocks, 1, 1)))
same("a mean of no good run", (0, 0, 0, 0), mean_of(sheet_of([0] + [3] * 7, 0, 9, 9)))
if not failures:
    print("boundary: ok")
sys.exit(failures > 0)
