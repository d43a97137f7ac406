"""Compares the library for C with the program on random settings (tools/try_c.sh)."""
import ctypes
import random
import subprocess
import sys

import library as strip122

PROGRAM, HEAP, ARENA = sys.argv[1:4]
COUNT, SEED = int(sys.argv[4]), int(sys.argv[5])
# by what the program's note names each answer that refuses an input
NOTES = {
    "input short": strip122.SHORT,
    "input long": strip122.LONG,
    "bad pixel": strip122.BAD_PIXEL,
    "no segment": strip122.NO_SEGMENT,
}


def run(command, words, given):
    return subprocess.run([PROGRAM, command, *words], input=given, capture_output=True)


def random_setting(random):
    """A setting's fields, most of them in range."""
    depth = random.randint(1, 16)
    chosen = dict(
        width=random.randint(17, 90),
        rows=random.randint(17, 90),
        depth=depth,
        is_signed=random.randint(0, 1),
        segment=random.randint(16, 80),
        packet=random.choice([64, 200, 1024, 65536]),
        apid=random.randint(0, 2046),
        image=random.randint(0, 65535),
        word=random.randint(1, 4),
        optimal=random.randint(0, 1),
    )
    if random.random() < 0.3:
        chosen.update(limit=12 * random.randint(3, 60), fill=random.randint(0, 1))
    if random.random() < 0.3:
        chosen.update(stop_plane=random.randint(0, 8), stop_stage=random.randint(0, 3))
    elif random.random() < 0.1:
        chosen.update(stop_dc=1)
    if random.random() < 0.3:
        chosen.update(weights=tuple(random.randint(0, 3) for _ in range(10)))
    if random.random() < 0.1:
        chosen.update(random.choice(WRONG))
    elif "limit" not in chosen and random.random() < 0.15:
        chosen.update(total=random.randint(400, 40000))
    return chosen


# values out of range, which the program's words can say
WRONG = [
    dict(width=16),
    dict(rows=16),
    dict(depth=17),
    dict(segment=15),
    dict(limit=31),
    dict(limit=0, fill=1),
    dict(word=5),
    dict(stop_plane=28, stop_dc=0),
    dict(apid=2047),
    dict(packet=63),
]


def words_of(chosen):
    stop = "dc" if chosen.get("stop_dc") else f"{chosen.get('stop_plane', 0)}.{chosen.get('stop_stage', 3)}"
    weights = "".join(str(shift) for shift in chosen.get("weights", (0, 1, 1, 1, 2, 2, 2, 3, 3, 3)))
    plain = "width rows depth segment packet apid image word".split()
    return [f"{name}={chosen[name]}" for name in plain] + [
        f"signed={chosen['is_signed']}",
        f"select={'optimal' if chosen['optimal'] else 'heuristic'}",
        f"limit={chosen.get('limit', 0)}",
        f"total={chosen.get('total', 0)}",
        f"fill={chosen.get('fill', 0)}",
        f"stop={stop}",
        f"weights={weights}",
    ]


def random_raster(random, chosen, seed):
    """A made raster, now and then with an octet too few or too many, or one that is changed."""
    sizes = {name: min(max(chosen[name], 17), 90) for name in ("width", "rows")}
    depth = min(chosen["depth"], 16)
    words = [f"{name}={size}" for name, size in sizes.items()]
    raster = run("make", [*words, f"depth={depth}", f"signed={chosen['is_signed']}", f"seed={seed}"], b"").stdout
    dice = random.random()
    if dice < 0.1:
        return raster[: -random.randint(1, len(raster))]
    if dice < 0.15:
        return raster + b"\0"
    if dice < 0.3:
        at = random.randrange(len(raster))
        return raster[:at] + bytes([raster[at] ^ 1 << random.randrange(8)]) + raster[at + 1 :]
    return raster


def padded(columns):
    return (columns + 7) // 8 * 8


def blocks(width, rows, segment):
    return min(segment, padded(width) // 8 * padded(rows) // 8)


def row_octets(chosen):
    return chosen["width"] * (1 if chosen["depth"] <= 8 else 2)


def encoder_memory(setting, end_room):
    """As strip122_memory of c/arena.h."""
    size = setting.width, setting.rows or 262144, setting.segment
    return 4 * (65 * padded(size[0]) + 65 * blocks(*size)) + setting.packet + end_room + 8192


def wanted_answer(ran):
    if ran.returncode in (0, 1):
        return ran.returncode
    note = ran.stderr.decode()
    if ran.returncode == 2:
        return strip122.OUT_OF_RANGE
    return next(answer for words, answer in NOTES.items() if words in note)


class Tries:
    def __init__(self):
        self.heap, self.arena = strip122.Library(HEAP), strip122.Library(ARENA)
        self.arena_calls = ctypes.CDLL(ARENA)
        self.arena_calls.strip122_arena_most.restype = ctypes.c_size_t
        self.counts = {}

    def count(self, what):
        self.counts[what] = self.counts.get(what, 0) + 1

    def hand_in(self, octets):
        """Hands in a buffer of this many octets, at a multiple of 16."""
        self.memory = (ctypes.c_uint8 * (octets + 16))()
        start = ctypes.addressof(self.memory)
        self.arena_calls.strip122_arena(ctypes.c_void_p(start + -start % 16), ctypes.c_size_t(octets))

    def exact_memory(self, call, expected):
        """The memory that the last call took is enough for the same call, and one octet less is not."""
        most = self.arena_calls.strip122_arena_most()
        self.hand_in(most)
        got = call()
        assert (got.answer, got.room) == expected, ("arena", got.answer)
        self.hand_in(most - 1)
        got = call()
        assert (got.answer, got.room, got.report.octets) == (strip122.NO_MEMORY, bytes(len(got.room)), 0), got.answer

    def encode(self, chosen, raster):
        """The packets, where the raster was encoded."""
        setting = strip122.usual(**chosen)
        ran = run("encode", words_of(chosen), raster)
        wanted = wanted_answer(ran)
        need = len(ran.stdout) if wanted == 0 else 0
        answer, report, room = self.heap.encode(setting, raster, need + 3)
        assert answer == wanted, (answer, ran, words_of(chosen))
        if wanted == strip122.OUT_OF_RANGE:
            assert ran.stderr.decode().endswith(f"out of range: {strip122.FIELDS[report.field]}\n"), (report.field, ran)
        if wanted == strip122.BAD_PIXEL:
            assert f"bad pixel {report.value} at row {report.rows} column {report.column}\n" in ran.stderr.decode(), ran
        if wanted != 0:
            self.count(f"refused, answer {wanted}")
            return None
        assert report.octets == need and room == ran.stdout + b"\0\0\0", words_of(chosen)
        small, report, room = self.heap.encode(setting, raster, need - 1)
        assert (small, report.octets, room) == (strip122.SMALL_ROOM, need, bytes(need - 1))
        size = chosen["width"], chosen["rows"], chosen["segment"]
        self.hand_in(need + 256 * padded(size[0]) + 260 * blocks(*size) + chosen["packet"] + 8192)
        answer, report, room = self.arena.encode(setting, raster, need)
        assert (answer, room) == (0, ran.stdout), ("arena", answer, words_of(chosen))
        self.hand_in(self.arena_calls.strip122_arena_most() - 16)
        assert self.arena.encode(setting, raster, need)[0] == strip122.NO_MEMORY
        self.count("encoded alike")
        self.wrong_structures(chosen, raster)
        return ran.stdout

    def wrong_structures(self, chosen, raster):
        """Structures of another size, and a book that is none, are refused."""
        setting = strip122.usual(**chosen)
        setting.size += 8
        assert self.heap.encode(setting, raster, 9)[0] == self.heap.encoder(setting).answer == strip122.WRONG_SIZE
        setting = strip122.usual(**chosen, book=bytes(138))
        assert self.heap.encode(setting, raster, 9)[0] == self.heap.encoder(setting).answer == strip122.BAD_BOOK
        assert self.heap.bound(setting) == 0

    def rows(self, chosen, raster, packets, dice):
        """The same row by row, with rows that are open or not; `packets` are those of the whole image."""
        is_open = "total" not in chosen and dice.random() < 0.5
        setting = strip122.usual(**{**chosen, "rows": 0 if is_open else chosen["rows"]})
        assert len(packets) <= self.heap.bound(setting)
        self.hand_in(encoder_memory(setting, self.heap.end_room(setting)))
        encoder = self.arena.encoder(setting)
        assert encoder.answer == 0, ("arena", encoder.answer, words_of(chosen))
        for image in (chosen["image"], 65535):
            words = words_of({**chosen, "rows": setting.rows, "image": image})
            expected = run("encode", words, raster).stdout
            given = self.taken(encoder, setting, chosen, raster, dice)
            self.same_so_far(words, raster, given, setting.rows == 0, dice)
            if not is_open:
                assert encoder.row(raster[: row_octets(chosen)], 9)[0] == strip122.ALL_ROWS
            last = self.answered(lambda size: encoder.end(65535, size), self.heap.end_room(setting))
            assert given[-1] + last.room[: last.report.octets] == expected, words
            assert (last.report.all, last.report.rows) == (len(expected), chosen["rows"])
        most = self.arena_calls.strip122_arena_most()
        encoder.free()
        encoder.free()
        assert encoder.row(raster, 9)[0] == encoder.end(1, 9)[0] == strip122.NO_IMAGE
        self.hand_in(most - 16)
        encoder = self.arena.encoder(setting)
        assert encoder.answer == strip122.NO_MEMORY and encoder.row(raster, 9)[0] == strip122.NO_IMAGE
        self.count("encoded alike, row by row")

    def answered(self, call, bound):
        """What a call answers in a room of exactly the octets that it needs, and not in one octet less."""
        asked = call(0)
        if asked.answer != strip122.SMALL_ROOM:
            assert asked.answer == 0 and asked.report.octets == 0, asked.answer
            return asked
        need = asked.report.octets
        assert 0 < need <= bound, (need, bound)
        small = call(need - 1)
        assert (small.answer, small.report.octets, small.room) == (strip122.SMALL_ROOM, need, bytes(need - 1))
        got = call(need)
        assert got.answer == 0 and got.report.octets <= need
        return got

    def taken(self, encoder, setting, chosen, raster, dice):
        """What was given after each number of rows. Bad rows and an early end between them change nothing."""
        octets, bound, given = row_octets(chosen), self.heap.row_room(setting), [b""]
        for at in range(0, len(raster), octets):
            row = raster[at : at + octets]
            if dice.random() < 0.1:
                assert encoder.row(row[:-1], bound)[0] == strip122.SHORT
                assert encoder.row(row + b"\0", bound)[0] == strip122.LONG
                assert at >= 17 * octets or encoder.end(1, self.heap.end_room(setting))[0] == strip122.UNFINISHED
            if dice.random() < 0.1 and chosen["depth"] % 8 != 0 and not chosen["is_signed"]:
                bad = encoder.row(row[: -(octets // chosen["width"])] + b"\xff" * (octets // chosen["width"]), bound)
                assert (bad.answer, bad.report.column) == (strip122.BAD_PIXEL, chosen["width"] - 1), bad.answer
                assert bad.report.rows == at // octets
            got = self.answered(lambda size, row=row: encoder.row(row, size), bound)
            given.append(given[-1] + got.room[: got.report.octets])
            assert (got.report.all, got.report.rows) == (len(given[-1]), at // octets + 1)
        return given

    def same_so_far(self, words, raster, given, is_open, dice):
        """The program has given the same after some numbers of rows that are fewer than all. If the rows are open, the input's end ends the
        image, so the program gives more."""
        octets = len(raster) // (len(given) - 1)
        for rows in dice.sample(range(len(given) - 1), 3):
            ran = run("encode", words, raster[: rows * octets])
            assert ran.stdout.startswith(given[rows]) if is_open else ran.stdout == given[rows], (rows, words)

    def decode(self, chosen, packets, all_there, is_open):
        words = [f"apid={chosen['apid']}"]
        ran = run("decode", words, packets)
        if b"too many pixels" in ran.stderr or len(ran.stdout) > 1 << 22:
            return
        wanted = wanted_answer(ran)
        lines = run("damage", words, packets).stdout.decode().split()
        ranges = [tuple(int(row) for row in line.split("-")) for line in lines]
        if wanted == strip122.NO_SEGMENT:
            assert self.heap.decode(chosen["apid"], packets, 9, 9)[0] == wanted
            self.count("no segment")
            return
        need = len(ran.stdout)
        answer, report, room, got = self.heap.decode(chosen["apid"], packets, need + 3, len(ranges) + 1)
        assert (answer, room) == (wanted, ran.stdout + b"\0\0\0"), (answer, ran.returncode)
        assert (report.octets, report.ranges, got) == (need, len(ranges), ranges), (report.ranges, got, ranges)
        if all_there:
            for name in ("width", "rows", "depth", "is_signed", "segment", "image", "word"):
                assert getattr(report, name) == chosen[name], name
        size = report.width, 262144 if is_open else report.rows, report.segment
        if need > 0:
            small, report, room, got = self.heap.decode(chosen["apid"], packets, need - 1, 1)
            assert (small, report.octets, room) == (strip122.SMALL_ROOM, need, bytes(need - 1))
            asked = self.heap.decode(chosen["apid"], packets, 0, 0)
            assert (asked.answer, asked.report.octets, asked.report.written) == (strip122.SMALL_ROOM, need, report.written)
        self.hand_in(need + 640 * padded(size[0]) + 260 * blocks(*size) + READER + 8192)
        answer, report, room, got = self.arena.decode(chosen["apid"], packets, need, 0)
        assert (answer, room) == (wanted, ran.stdout), ("arena", answer)
        self.exact_memory(lambda: self.arena.decode(chosen["apid"], packets, need, 0), (wanted, ran.stdout))
        self.count("decoded alike, whole" if wanted == 0 else "decoded alike, damaged")
        self.caps(chosen["apid"], packets, need)
        self.readings(chosen["apid"], packets, ranges, size)
        self.restored(chosen["apid"], packets)

    def readings(self, apid, packets, ranges, size):
        """The look and the rectangles, as the commands give them."""
        wish = strip122.usual_wish(apid)
        for command in ("look", "rects"):
            call, fixed = getattr(self.heap, command), getattr(self.arena, command)
            ran = run(command, [f"apid={apid}"], packets)
            wanted, need = wanted_answer(ran), len(ran.stdout)
            got = call(wish, packets, need + 3, len(ranges) + 1)
            assert (got.answer, got.room, got.ranges) == (wanted, ran.stdout + b"\0\0\0", ranges), (command, got.answer, ran)
            assert (got.report.octets, got.report.ranges) == (need, len(ranges))
            if need > 0:
                got = call(wish, packets, need - 1, 1)
                assert (got.answer, got.report.octets, got.room) == (strip122.SMALL_ROOM, need, bytes(need - 1)), (command, got.answer)
            more = need + 8 * padded(size[0]) // 8 if command == "look" else 3 * need + 48 * (need // 8 + 4)
            self.hand_in(more + 260 * blocks(*size) + READER + 8192)
            got = fixed(wish, packets, need, 0)
            assert (got.answer, got.room) == (wanted, ran.stdout), ("arena", command, got.answer)
            self.exact_memory(lambda: fixed(wish, packets, need, 0), (wanted, ran.stdout))
            self.count(f"{command}: alike")

    def restored(self, apid, packets):
        """The picture and the look of restored coefficients, as the commands give them."""
        wish = strip122.usual_wish(apid, restore=True)
        for command, call in (("decode", self.heap.decode_with), ("look", self.heap.look)):
            ran = run(command, [f"apid={apid}", "restore=1"], packets)
            got = self.heap.whole(call, wish, packets)
            assert (got.answer, got.room) == (wanted_answer(ran), ran.stdout), (command, got.answer, ran)
            self.count(f"{command}, restored: alike")

    def info(self, apid, packets):
        """The list of images of an APID, and of each, as the command gives it."""
        for wished, words in ((apid, [f"apid={apid}"]), (strip122.EACH_APID, [])):
            wish = strip122.usual_wish(wished)
            ran = run("info", words, packets)
            wanted, need = wanted_answer(ran), len(ran.stdout)
            got = self.heap.info(wish, packets, need + 3)
            assert (got.answer, got.room, got.report.octets) == (wanted, ran.stdout + b"\0\0\0", need), (got.answer, ran)
            assert got.report.images == ran.stdout.count(b"\n") and (got.report.fault == 0) == (wanted == 0), ran
            if need > 0:
                got = self.heap.info(wish, packets, need - 1)
                assert (got.answer, got.report.octets, got.room) == (strip122.SMALL_ROOM, need, bytes(need - 1)), got.answer
            self.hand_in(3 * need + 131084 + INFO_TABLE + 8192)
            got = self.arena.info(wish, packets, need)
            assert (got.answer, got.room) == (wanted, ran.stdout), ("arena", got.answer)
            self.exact_memory(lambda: self.arena.info(wish, packets, need), (wanted, ran.stdout))
            short = strip122.usual_wish(wished, octets=len(packets))
            ran = run("info", [*words, f"octets={len(packets)}"], packets)
            got = self.heap.info(short, packets, 1 << 16)
            assert got.answer == (ran.returncode if ran.returncode < 2 else strip122.LONG_INPUT), (got.answer, ran)
            self.count("info: alike")

    def many_images(self):
        """There is room for 4,096 images, and not for one more."""
        packets = b""
        for image in range(4097):
            setting = strip122.usual(17, 17, image=image)
            answer, report, room = self.heap.encode(setting, bytes(289), 4096)
            assert answer == 0
            before, packets = packets, packets + room[: report.octets]
        for given, wanted in ((before, strip122.DONE), (packets, strip122.TOO_MANY_IMAGES)):
            ran = run("info", [], given)
            got = self.heap.info(strip122.usual_wish(strip122.EACH_APID), given, 1 << 20)
            assert got.answer == wanted and (ran.returncode == 0) == (wanted == 0), (got.answer, ran.returncode)
            assert got.room[: got.report.octets] == ran.stdout
        self.count("4,097 images")

    def first_ending(self, chosen, packets, is_open):
        """Whether a room is too small or the packets are too long is answered by what is read first: the size is known from the first
        packet, or if the height is reported last from all of them."""
        total = padded(chosen["width"]) * padded(chosen["rows"]) // 64
        is_last = is_open and total > chosen["segment"]
        known = len(packets) + 1 if is_last else 7 + int.from_bytes(packets[4:6], "big")
        for call in (self.heap.decode_with, self.heap.look):
            for octets, wanted in ((known - 1, strip122.LONG_INPUT), (known, strip122.SMALL_ROOM)):
                got = call(strip122.usual_wish(chosen["apid"], octets=octets), packets, 0, 0)
                assert got.answer == wanted, (got.answer, wanted, octets, known)
        self.count("first ending")

    def wrong_reports(self, packets):
        """Reports and wishes of another size, and a book that is none, are refused, and nothing is written."""
        wish, bad = strip122.usual_wish(), strip122.usual_wish(book=bytes(138))
        wrong = strip122.usual_wish()
        wrong.size += 8
        for call in (self.heap.decode_with, self.heap.look, self.heap.rects):
            assert call(bad, packets, 9, 0).answer == strip122.BAD_BOOK and call(wrong, packets, 9, 0).answer == strip122.WRONG_SIZE
        assert self.heap.info(bad, packets, 9).answer == strip122.BAD_BOOK and self.heap.info(wrong, packets, 9).answer == strip122.WRONG_SIZE
        room, report = (ctypes.c_uint8 * 9)(), strip122.Listed(size=31, images=7)
        answer = self.heap.calls.strip122_info(wish, packets, len(packets), room, 9, report)
        assert (answer, report.size, report.images) == (strip122.WRONG_SIZE, 31, 7)
        self.count("structures refused")

    def caps(self, apid, packets, need):
        """A pixel or an octet too many: the program and the library refuse alike, before there is a room and with one."""
        pixels = self.heap.decode(apid, packets, 0, 0).report
        pixels = pixels.width * pixels.written - 1
        if pixels < 0:
            return  # no packet begins a segment, so no header reports a size
        for words, wish, answer, note in (
            ([f"pixels={pixels}"], strip122.usual_wish(apid, pixels=pixels), strip122.TOO_MANY_PIXELS, "too many pixels, {pixels}"),
            ([f"octets={len(packets)}"], strip122.usual_wish(apid, octets=len(packets)), strip122.LONG_INPUT, "input too long"),
        ):
            ran = run("decode", [f"apid={apid}", *words], packets)
            for room in (need, 0) if answer == strip122.TOO_MANY_PIXELS else (need,):
                got = self.heap.decode_with(wish, packets, room, 0)
                if ran.returncode in (0, 1):
                    assert got.answer in (ran.returncode, strip122.SMALL_ROOM), (got.answer, ran.returncode, words)
                else:
                    assert got.answer == answer and got.room == bytes(room), (got.answer, ran, words)
                    assert note.format(pixels=got.report.pixels) in ran.stderr.decode(), (got.report.pixels, ran)
        self.count("caps alike")


# octets of the table of 4,096 images, and of its buckets
INFO_TABLE = 4096 * (88 + 2 + 2)
# What is read ahead, and the tables of words.
READER = 131084 + 52448 + 4096


def lost(random, packets):
    """Packets of which an octet is changed, or some at the end are cut, now and then."""
    dice = random.random()
    if dice < 0.3:
        at = random.randrange(len(packets))
        return packets[:at] + bytes([packets[at] ^ 1 << random.randrange(8)]) + packets[at + 1 :]
    if dice < 0.5:
        return packets[: random.randrange(len(packets))]
    return packets


def main():
    tries = Tries()
    tries.many_images()
    tries.wrong_reports(b"")
    before = []
    for seed in range(COUNT):
        dice = random.Random(f"{SEED} {seed}")
        chosen = random_setting(dice)
        raster = random_raster(dice, chosen, seed)
        packets = tries.encode(chosen, raster)
        if packets:
            tries.rows(chosen, raster, packets, dice)
            tries.decode(chosen, packets, True, False)
            tries.decode(chosen, lost(dice, packets), False, False)
            tries.first_ending(chosen, packets, False)
            before = before[-2:] + [packets]
            tries.info(chosen["apid"], lost(dice, b"".join(before)))
            if "total" not in chosen:
                opened = run("encode", words_of({**chosen, "rows": 0}), raster).stdout
                tries.decode(chosen, opened, True, True)
                tries.decode(chosen, lost(dice, opened), False, True)
                tries.first_ending(chosen, opened, True)
    for what, count in sorted(tries.counts.items()):
        print(f"{count:6} {what}")


main()
