"""Files of packets with every fault that `sort` mends.

What is expected is known from the packets themselves: an image has every packet of which a whole copy was in the octets,
once and in its place.
"""

from __future__ import annotations

import random
import sys
from collections import defaultdict
from typing import Callable, Dict, List, Optional, Sequence, Set, Tuple

import pytest
from strip122 import BadInput, Pass, decode, sort
from strip122.images import SortedImage
from strip122.passes import lost_text
from wire import IMAGES, ROWS, WIDTH, Place, Streams, counted_on, header, key_of, made, octets_by, of_others, other_packet
from wire import packets_of, place_of, run, without


def stream(packets: Sequence[bytes]) -> bytes:
    return b"".join(packets)


def expect(images: Streams, octets: Sequence[bytes], kept: Sequence[bytes], skipped: Optional[int] = None) -> Pass:
    """Sorts files, and compares: `kept` has the packets that are whole in them, in any order."""
    them = sort(octets)
    wanted: Dict[object, Dict[Place, bytes]] = defaultdict(dict)
    for it in kept:
        wanted[key_of(it)][place_of(it)] = it
    table = them.table(True)
    assert [it.key[:2] for it in them.images] == sorted(wanted), table
    for it in them.images:
        want = wanted[it.key[:2]]
        assert them.stream(it) == stream([want[place] for place in sorted(want)]), table
        gone = {place[0] for place in map(place_of, images.packets[it.key[:2]]) if place not in want}
        missing = {index for lost in it.lost for index in range(lost.first, lost.last + 1)}
        assert missing == gone if it.segments else missing <= gone, table
    assert skipped is None or them.skipped_octets == skipped, table
    return them


def test_whole(images: Streams) -> None:
    for packets in images.packets.values():
        them = expect(images, [stream(packets)], packets, 0)
        assert them.is_whole and them.images[0].mended == them.images[0].duplicates == 0


def test_reversed(images: Streams) -> None:
    packets = images.all()[::-1]
    them = expect(images, [stream(packets)], packets, 0)
    assert them.is_whole and sum(it.mended for it in them.images) == len(packets) - len(them.images)


def test_shuffled(images: Streams, chance: random.Random) -> None:
    packets = images.all()
    chance.shuffle(packets)
    expect(images, [stream(packets)], packets, 0)


def test_copies(images: Streams) -> None:
    packets = images.all()
    again = [counted_on(it, number) for number, it in enumerate(packets)]
    them = expect(images, [stream(packets + packets[::-1] + again)], packets, 0)
    assert them.is_whole and sum(it.duplicates for it in them.images) == 2 * len(packets)


def test_copies_shuffled(images: Streams, chance: random.Random) -> None:
    packets = images.all() * 3
    chance.shuffle(packets)
    them = expect(images, [stream(packets)], images.all(), 0)
    assert them.is_whole and sum(it.duplicates for it in them.images) == 2 * len(images.all())


@pytest.mark.parametrize("kind", range(4))
def test_junk(images: Streams, chance: random.Random, kind: int) -> None:
    """Junk before, between and after the packets: random octets, zeros, prefixes of headers and ends of packets."""
    packets = images.all()
    octets = [octets_by(chance, 5000)]
    for it in packets:
        other = chance.choice(packets)
        junk = [octets_by(chance, 90), bytes(50), other[:29], other[chance.randrange(7, len(other)) :]][kind]
        octets += [it, junk]
    expect(images, [stream(octets)], packets, sum(map(len, octets)) - sum(map(len, packets)))


@pytest.mark.parametrize("part", [0.02, 0.3, 0.9])
def test_lost(images: Streams, chance: random.Random, part: float) -> None:
    kept = [it for it in images.all() if chance.random() >= part]
    them = expect(images, [stream(kept)], kept, 0)
    lost = [it for it in images.all() if it not in kept]
    assert them.is_whole == set(map(key_of, lost)).isdisjoint(map(key_of, kept))


def test_cut(images: Streams, chance: random.Random) -> None:
    """Packets cut at their end, at their beginning and in the middle, each before a whole one or the end."""
    for _ in range(20):
        octets: List[bytes] = []
        for it in images.all():
            a, b = sorted(chance.sample(range(7, len(it) + 1), 2))
            octets += [chance.choice([b"", it[:a], it[b:], it[:a] + it[b:]]), it]
        octets.append(images.all()[0][:50])
        expect(images, [stream(octets)], images.all(), sum(map(len, octets)) - sum(map(len, images.all())))


def test_cut_at_the_beginning(images: Streams) -> None:
    """Packets that lost their first octets. What is before may make a header of the rest, of another APID."""
    for lost in range(1, 7):
        kept, cut = images.all()[::2], [*images.all()[1::2], b""]
        # Where the octets before are those that are lost, nothing is.
        octets = [it + other[lost if it[-lost:] != other[:lost] else len(other) :] for it, other in zip(kept, cut)]
        them = sort(stream(octets))
        found = {it.key[:2]: them.stream(it) for it in them.images}
        for key in images.packets:
            own = [it for it in kept if key_of(it) == key]
            assert all(it in found[key] for it in own)
            assert len(found[key]) == sum(map(len, own))


def test_cut_to_fit(images: Streams) -> None:
    """A cut packet whose length leads to a packet all the same: the one inside is whole."""
    first, second, third = images.packets[7, 0][:3]
    cut = first[: len(first) - len(second)]
    assert len(cut) >= 31
    expect(images, [cut + second + third], [second, third], len(cut))


def test_headers_in_text(images: Streams) -> None:
    """A header inside a packet that leads on is text: here that of a packet which isn't whole itself."""
    packets, long = images.packets[2046, 0], list(images.packets[7, 1])
    inner = packets[5][:40]
    long[2] = long[2][:100] + inner + long[2][100 + len(inner) :]
    kept = long + packets
    expect(Streams({}, {**images.packets, (7, 1): long}), [stream(kept)], kept, 0)


def test_others(images: Streams, chance: random.Random) -> None:
    """Packets of other kinds and sources are left out, and lead on."""
    packets, octets = images.all(), []
    for it in packets:
        octets += [of_others(chance), it, of_others(chance)]
    them = expect(images, [stream(octets)], packets, sum(map(len, octets)) - sum(map(len, packets)))
    assert not any(it.before_junk for it in them.images)
    counts = them.found.packets_of
    assert sum(counts.values()) == 2 * len(packets)
    assert set(counts) == {"idle packet", "telecommand packet", "packet of another source"}
    assert not them.found.skipped and "skipped: " in them.table() and "idle packets" in them.table()
    listed = sort(stream(octets), lists_others=True)
    assert sum(it.packets for it in listed.found.skipped) == 2 * len(packets)


def test_mixed(images: Streams, chance: random.Random) -> None:
    """Three APIDs with two images each, a gap, copies, reversed packets, and junk in the middle."""
    streams = [list(it) for it in images.packets.values()]
    lost = streams[0].pop(3)
    streams[2].reverse()
    twice = streams[4][5:9] + streams[5][2:4]
    kept = [it for them in streams for it in them]
    octets = kept[: len(kept) // 2] + [octets_by(chance, 5000)] + kept[len(kept) // 2 :] + twice
    found = expect(images, [stream(octets)], kept, 5000)
    assert len(found.images) == 6 and sum(it.duplicates for it in found.images) == len(twice)
    assert [it.first for it in found.images[0].lost] == [place_of(lost)[0]] and not found.is_whole


def test_second_pass(images: Streams) -> None:
    """Two files with gaps, each of which has what the other lacks; the first ends in a packet."""
    packets = images.all()
    first = stream([it for number, it in enumerate(packets) if number % 3])
    second = stream([it for number, it in enumerate(packets) if number % 5])
    kept = [it for number, it in enumerate(packets) if number % 15]
    cut = packets[0][:45]
    them = expect(images, [first + cut, second], kept, len(cut))
    assert sum(it.duplicates for it in them.images) > 0 and sum(it.mended for it in them.images) > 0


# ---- copies that differ


def refused_copy(packets: List[bytes], number: int) -> bytes:
    """A copy of a packet with an octet changed, so that the program keeps it and refuses its segment."""
    it = packets[number]
    for place in range(len(it) - 9, 50, -13):
        changed = it[:place] + bytes([it[place] ^ 0x55]) + it[place + 1 :]
        if run("decode", stream([*packets[:number], changed, *packets[number + 1 :]]), apid=key_of(it)[0])[0] == 1:
            assert run("list", stream(packets[:number] + [changed]), apid=key_of(it)[0])[1].split()[-4] == b"kept"
            return changed
    raise AssertionError("all changes are read")


@pytest.mark.parametrize("is_first", [True, False])
def test_differing(images: Streams, is_first: bool) -> None:
    """Of copies of which one is changed, that one is used with which the program reads the segment."""
    packets = images.packets[7, 1]
    octets: List[bytes] = []
    for number, it in enumerate(packets):
        if number not in (2, 3, 6, 7):
            octets.append(it)
            continue
        changed = refused_copy(packets, number)
        octets += [changed, it] if is_first else [it, changed]
    them = sort(stream(octets))
    image = them.images[0]
    assert [it >> 32 for it in image.differing] == [2, 3, 6, 7] and not them.is_whole
    assert them.table().count("copies differ") == 4
    assert them.stream(image) == stream(packets) and decode(them.stream(image)).is_whole


def test_differing_parts(images: Streams) -> None:
    """The same in segments of several packets, of which two have copies that differ."""
    packets = images.packets[7, 0]
    octets: List[bytes] = []
    for number, it in enumerate(packets):
        index, part = place_of(it)
        octets += [refused_copy(packets, number), it] if index in (1, 5) and part < 2 else [it]
    them = sort(stream(octets))
    assert len(them.images) == 1 and len(them.images[0].differing) == 4
    assert them.stream(them.images[0]) == stream(packets)


def test_voted(images: Streams) -> None:
    """Of three copies side by side two are alike, and one is changed: without the program the two are used."""
    packets = images.packets[100, 0]
    octets = [copy for it in packets for copy in (it[:-1] + bytes([it[-1] ^ 1]), it, it)]
    them = sort(stream(octets), asks_program=False)
    assert [them.stream(it) for it in them.images] == [stream(packets)]


def test_replaced_end(images: Streams, chance: random.Random) -> None:
    """The end of a packet is junk: no one can tell, but a second copy that leads on goes before it."""
    packets = images.packets[7, 1]
    octets = stream(packets[:3]) + packets[3][:60] + octets_by(chance, 5000) + stream(packets[4:])
    image = sort(octets).images[0]
    assert [image.headers.text(it) for it in image.before_junk] == ["apid 7 image 1 segment 3 part 0"]
    assert len(image.packets) == len(packets)
    strict = sort(octets, is_strict=True)
    assert strict.stream(strict.images[0]) == stream(packets[:3] + packets[4:]) and "before junk" in strict.table()
    again = sort(octets + packets[3])
    assert again.stream(again.images[0]) == stream(packets)


def test_refused_heads(images: Streams) -> None:
    packets = list(images.packets[7, 1])
    broken = packets[4][:30] + b"\xff" + packets[4][31:]
    kept = packets[:4] + packets[5:]
    them = expect(images, [stream([*packets[:4], broken, *packets[5:]])], kept, len(broken))
    assert "segment header refused: apid 7 image 1 segment 4 part 0" in them.table()


# ---- several images of one number


def test_one_number_and_other_sizes(images: Streams) -> None:
    """Images of one APID and number differ by their sizes, and by their segment headers."""
    settings = [{"segment": 16}, {"segment": 24}, {"segment": 16, "depth": 9, "packet": 200}]
    streams = [stream(made(3, apid=9, **it)[1]) for it in settings]
    them = sort(stream(streams))
    assert [them.stream(it) for it in them.images] == streams and them.is_whole
    assert [it.name for it in them.images] == ["apid-9-image-0", "apid-9-image-0-b", "apid-9-image-0-c"]


@pytest.mark.parametrize("packet", [65536, 100])
@pytest.mark.parametrize("kept", [(0, 99), (0, 3), (2, 7), (5, 99)])
def test_one_number_twice(packet: int, kept: Sequence[int]) -> None:
    """Two pictures under one number: a part of the first one, and then the whole second one."""
    first = [it for it in made(3, segment=16, packet=packet)[1] if kept[0] <= place_of(it)[0] < kept[1]]
    raster, second = made(4, segment=16, packet=packet)
    them = sort(stream(first + second))
    assert [it.name for it in them.images] == ["apid-100-image-0", "apid-100-image-0-b"]
    assert [them.stream(it) for it in them.images] == [stream(first), stream(second)]
    assert decode(them.stream(them.images[1])).array.tobytes() == raster
    assert not them.images[0].differing and not them.images[1].differing


def test_one_number_thrice(images: Streams) -> None:
    streams = [stream(made(seed, segment=16)[1]) for seed in (3, 4, 5)]
    them = sort(stream([*streams, streams[1]]))
    assert [them.stream(it) for it in them.images] == streams and them.is_whole
    assert them.images[1].duplicates == len(packets_of(streams[1]))


def test_second_pass_with_a_changed_packet(images: Streams) -> None:
    """A second file is a copy of the same image though a packet of it is changed: it fills the gaps of the first."""
    packets = images.packets[100, 0]
    first = [it for number, it in enumerate(packets) if number not in (10, 30)]
    changed = packets[20][:-9] + bytes([packets[20][-9] ^ 0x55]) + packets[20][-8:]
    second = [changed if number == 20 else it for number, it in enumerate(packets)]
    them = sort([stream(first), stream(second)])
    assert [them.stream(it) for it in them.images] == [stream(packets)]
    assert len(them.images[0].differing) == 1


def test_names_of_many_images() -> None:
    from strip122.images import suffix

    assert [suffix(it) for it in (0, 1, 2, 25, 26, 27)] == ["", "-b", "-c", "-z", "-27", "-28"]


# ---- ends of files


@pytest.fixture(scope="module")
def lone(program: str) -> bytes:
    """An image of one packet, of an APID of its own."""
    packets = made(5, 17, 17, apid=1500, segment=16)[1]
    assert len(packets) == 1
    return packets[0]


@pytest.mark.parametrize("cut", range(1, 7))
def test_cut_file_before_a_lone_packet(images: Streams, lone: bytes, cut: int) -> None:
    """The octets that a file lacks aren't taken from the packet with which the next file begins."""
    for key in ((7, 1), (100, 0), (2046, 0)):
        packets = images.packets[key]
        them = sort([stream(packets)[:-cut], lone])
        assert {them.stream(it) for it in them.images} == {stream(packets[:-1]), lone}
        assert not them.is_whole


@pytest.mark.parametrize("cut", range(1, 7))
def test_cut_packet_before_a_lone_packet(images: Streams, lone: bytes, cut: int) -> None:
    """The same inside one file, where the lone packet leads on."""
    packets = images.packets[7, 1]
    them = sort(stream(packets)[:-cut] + lone)
    assert {them.stream(it) for it in them.images} == {stream(packets[:-1]), lone}


@pytest.mark.parametrize("cut", range(1, 7))
def test_cut_packet_before_a_lone_packet_and_junk(images: Streams, lone: bytes, cut: int) -> None:
    """The same if neither of the two leads on."""
    packets = images.packets[7, 1]
    them = sort(stream(packets)[:-cut] + lone + bytes(50))
    assert {them.stream(it) for it in them.images} == {stream(packets[:-1]), lone}


@pytest.mark.parametrize("cut", [1, 3, 6, 20, 200])
def test_cut_file_before_packets_of_others(images: Streams, cut: int) -> None:
    packets = images.packets[7, 1]
    idle = other_packet(0x07FF, bytes(40))
    them = sort([stream(packets)[:-cut], idle * 3])
    assert [them.stream(it) for it in them.images] == [stream(packets[:-1])]
    assert them.found.packets_of["idle packet"] == 3 and not them.is_whole


def test_packet_over_two_files(images: Streams) -> None:
    octets = stream(images.all())
    for at in (1, 6, 29, 31, 400, len(octets) - 1):
        expect(images, [octets[:at], b"", octets[at:]], images.all(), 0)


def test_every_end(images: Streams) -> None:
    """A file cut anywhere has exactly the packets before."""
    packets = images.packets[7, 1][:3]
    octets = stream(packets)
    for end in range(len(octets)):
        whole = [it for number, it in enumerate(packets) if sum(map(len, packets[: number + 1])) <= end]
        if not whole:
            with pytest.raises(BadInput):
                sort(octets[:end])
            continue
        them = sort(octets[:end])
        assert [them.stream(it) for it in them.images] == [stream(whole)]


# ---- heights in the last segment


def test_height_last(images: Streams, chance: random.Random) -> None:
    packets = images.packets[7, 1]
    raster = images.rasters[7, 1]
    status, octets, _ = run("encode", raster, width=WIDTH, rows=0, apid=7, image=1, segment=16, packet=65536)
    reported = [it[:6] + b"\x12\x21" + it[8:10] + bytes(4) + it[14:] for it in packets]
    assert status == 0 and packets_of(octets) == reported
    them = sort(octets_by(chance, 99) + stream(reported[::-1] + packets[::2]))
    assert {them.stream(it) for it in them.images} == {stream(reported), stream(packets[::2])}
    open_image = next(it for it in them.images if it.key.rows == 0)
    assert open_image.is_whole and open_image.rows == ROWS
    them = sort(stream(reported[:-1]))
    assert them.images[0].segments is None and not them.is_whole and lost_text(them.images[0]) == "?"


# ---- all faults at once


def test_everything(images: Streams, chance: random.Random) -> None:
    odd = used = 0
    for _ in range(20):
        octets, kept = [], set()
        packets = images.all() * 2
        chance.shuffle(packets)
        for it in packets:
            kind = chance.choice(["begin", "end", "before junk", "after another", "whole", "whole", "whole", "lost"])
            octets.append(it[: chance.randrange(len(it))] if kind == "begin" else b"")
            octets.append(it[chance.randrange(7, len(it)) :] if kind == "end" else b"")
            octets.append(of_others(chance) if kind == "after another" else b"")
            if kind in ("before junk", "after another", "whole"):
                octets.append(it)
                kept.add(it)
            octets.append(octets_by(chance, chance.randrange(400)) if kind == "before junk" else b"")
        them = sort(stream(octets))
        found = {it: image.leads[number] for image in them.images for number, it in all_copies(them, image)}
        assert kept <= set(found), them.table()
        # A packet whose end is junk may be used, but hardly one that leads on: the junk has to fit.
        used += len(found)
        odd += sum(leads and it not in kept for it, leads in found.items())
        assert {it.name for it in them.images} <= {f"apid-{apid}-image-{image}" for apid, image in IMAGES}
    assert used > 1000 and odd * 500 < used, (odd, used)


def all_copies(them: Pass, image: SortedImage) -> List[Tuple[int, bytes]]:
    """The packets of an image with all copies that differ, each with its number."""
    numbers = {*image.packets.tolist(), *(it for copies in image.differing.values() for it in copies)}
    headers = image.headers
    return [(it, them.source.read(int(headers.at[it]), int(headers.end[it] - headers.at[it]))) for it in numbers]


def test_random_files(images: Streams, request: pytest.FixtureRequest, chance: random.Random) -> None:
    """Packets in many files, some of them cut, junk and headers between: all that are whole are found. `--files` are tried."""
    lone = [it for apid in (1500, 1501) for it in made(apid, 17, 17, apid=apid, image=apid % 3, segment=16)[1]]
    whole = odd = 0
    for _ in range(request.config.getoption("--files")):
        files, kept = broken_files(images.all() + lone, chance)
        if not kept:
            continue
        them = sort(files, asks_program=False)
        found = {it: image.leads[number] for image in them.images for number, it in all_copies(them, image)}
        assert kept <= set(found), them.table()
        whole += len(kept)
        odd += sum(leads and it not in kept for it, leads in found.items())
    print(f"{whole} whole packets, all found, and {odd} others that lead on")
    assert odd * 2000 < whole


def broken_files(packets: List[bytes], chance: random.Random) -> Tuple[List[bytes], Set[bytes]]:
    """Files of some of these packets with faults, and the packets that are whole in them."""
    packets = [it for it in packets if chance.random() < 0.9] * chance.choice([1, 1, 2])
    if chance.random() < 0.5:
        chance.shuffle(packets)
    files: List[List[bytes]] = [[]]
    kept = set()
    faults = chance.choice([0.02, 0.1, 0.3])
    for it in packets:
        if chance.random() < 0.04:
            files.append([])
        if chance.random() < faults:
            fault = chance.choice(["begin", "end", "middle", "few", "few and a file", "junk", "others", "header"])
            files[-1].append(broken(it, fault, chance))
            if fault == "few and a file":
                files.append([])
            if fault not in ("junk", "others", "header"):
                continue
        files[-1].append(it)
        kept.add(it)
    return [stream(them) for them in files], kept


def broken(packet: bytes, fault: str, chance: random.Random) -> bytes:
    """What is left of a packet after a fault, or what is put before it."""
    a, b = sorted(chance.sample(range(1, len(packet)), 2))
    return {
        "begin": packet[:a],
        "end": packet[a:],
        "middle": packet[:a] + packet[b:],
        "few": packet[: -chance.randint(1, 6)],
        "few and a file": packet[: -chance.randint(1, 6)],
        "junk": octets_by(chance, chance.randrange(200)),
        "others": of_others(chance),
        "header": header(apid=chance.randrange(2047), length=chance.randrange(25, 2000)),
    }[fault]


# ---- in proportion to the octets


def idle_run(packets: int, inner: int) -> bytes:
    """Idle packets with headers inside, each of which leads to the next idle packet."""
    size = 60
    data = header(apid=inner, length=size + 6 - 30 - 6 - 1 + 24) + bytes(size - 30)
    return other_packet(0x07FF, data) * packets


def test_idle_packets_with_headers_inside(monkeypatch: pytest.MonkeyPatch) -> None:
    """Twice the octets take twice the steps."""
    from strip122 import finding
    from strip122.source import Source

    steps = []
    other = finding.other_packet
    for count in (500, 1000, 2000):
        calls = [0]

        def counting(source: Source, at: int, calls: List[int] = calls) -> int:
            calls[0] += 1
            return other(source, at)

        monkeypatch.setattr(finding, "other_packet", counting)
        finding.find(Source([idle_run(count, 1)]))
        steps.append(calls[0])
    assert steps[1] < 2.2 * steps[0] and steps[2] < 2.2 * steps[1] and steps[2] < 40_000


def calls_of(action: Callable[[], object]) -> int:
    """The calls of Python functions, and the steps of generators, that an action takes."""
    calls = [0]

    def count(frame: object, event: str, argument: object) -> None:
        calls[0] += event == "call"

    sys.setprofile(count)
    try:
        action()
    finally:
        sys.setprofile(None)
    return calls[0]


@pytest.mark.parametrize("inner", [1, 2047])
def test_no_call_for_each_packet_of_others(inner: int) -> None:
    """Headers of this coder inside idle packets, or none, take less than a call for four packets."""
    from strip122 import finding
    from strip122.source import Source

    octets = [idle_run(count, inner) for count in (20_000, 40_000)]
    calls = [calls_of(lambda it=it: finding.find(Source([it]))) for it in octets]  # type: ignore[misc]
    assert calls[1] - calls[0] < 5_000, calls


@pytest.mark.parametrize("order", ["joined", "alternating", "reversed copies"])
def test_no_call_for_each_packet_of_copies(order: str) -> None:
    """Two images under one number take less than a call for four packets."""
    calls, packets = [], []
    for rows in (512, 1024):
        first, second = (made(seed, 512, rows, packet=100)[1] for seed in (3, 4))
        them = {
            "joined": first + second,
            "alternating": [it for pair in zip(first, second) for it in pair],
            "reversed copies": (first + first)[::-1],
        }[order]
        octets = stream(them)
        calls.append(calls_of(lambda octets=octets: sort(octets, asks_program=False)))  # type: ignore[misc]
        packets.append(len(them))
    assert packets[1] - packets[0] > 1000 and 4 * (calls[1] - calls[0]) < packets[1] - packets[0], (calls, packets)


def test_choices_are_linear(monkeypatch: pytest.MonkeyPatch) -> None:
    """To choose between copies, the program gets octets in proportion to those of the image, in few runs."""
    from strip122 import choosing

    given = []
    for rows in (64, 128, 256):
        first, second = (made(seed, 64, rows, segment=16, packet=100)[1] for seed in (3, 4))
        common = min(len(first), len(second))
        octets = stream([it for pair in zip(first[:common], second[:common]) for it in pair])
        calls = []
        run_program = choosing.run
        monkeypatch.setattr(choosing, "run", lambda words, octets: calls.append(len(octets)) or run_program(words, octets))
        sort(octets)
        monkeypatch.setattr(choosing, "run", run_program)
        given.append((len(calls), sum(calls) / len(octets)))
    assert max(runs for runs, _ in given) <= 130 and max(share for _, share in given) <= 64, given
