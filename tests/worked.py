"""Scenarios worked out by hand: a title, a scenario, the answers of its last steps, and what else is to hold."""

from author import ACKED, alter, associate, by, deliver, loop, map_ask, power, queue, scenario_of, send
from two_ends import LAST_KEY, LAST_PN, PEER


def out(name, **members):
    return {"out": name, **members}


def stored(*up):
    return out("stored", up=list(up))


def bad(why, place):
    return out("badframe", why=why, place=place)


def inject(octets, end="sta", link=0):
    return by(end, "inject", link=link, hex=octets)


def change(way, *sets):
    """A change of a direction: the set of each TID, or one for all."""
    return {"dir": way, "map": list(sets) if len(sets) > 1 else list(sets) * 8}


def carried(end):
    """The next management body of an end is sent over link 0 and delivered."""
    return [send(0, "m", end), deliver(end=PEER[end])]


def settled(end, *entries):
    """An ask that is carried to the peer, and its reply that is carried back."""
    return [map_ask(end, *entries), *carried(end), *carried(PEER[end])]


def from_ap(payload, receiver="20", sender="10"):
    """A frame of the AP's first packet number, between link addresses that end so."""
    header = f"884200000200000000{receiver}0200000000{sender}020000000001"
    return header + "0000" * 2 + "0100002000000000" + payload


# A frame that no key opens, the first one of the body 5a, and the station's first one of management, a teardown. The
# tags of both are what sha256sum gives.
SHUT, FIRST = from_ap("aa"), from_ap("5a5d0e853b30da0669")
TEARDOWN = "d0400000020000000010020000000020020000000010" + "0000" + "0100002000000000" + "2502b79cd06283a70e55"
# A frame of TID 5 and key 513 behind its flags.
FIFTH = "0000020000000020020000000010020000000001" + "00000500" + "0605006004030201" + "5abb79c7841745fdef"
ASKED_UP = "250001ff136d01ff"  # the first ask of an end, of eight sets for the uplink, without them
ALIKE = {"id": 0, "ap": "020000000010", "sta": "020000000010"}


def request(rest, link=0):
    """An association request over a link, from its elements on."""
    return f"0000000002000000001{link}02000000002{link}02000000001{link}0000" + "00000000" + rest


def response(status, rest, link=0):
    """An association response over a link, with a status, from its elements on."""
    return f"1000000002000000002{link}02000000001{link}02000000001{link}0000" + f"0000{status}01c0" + rest


# The elements of requests and responses: up to the first profile, for no profile and for one with an address; and the
# profile of a link with its address, of a response without the status behind it.
ASK_ONE, ASK_TWO = "ff0a6b000007020000000002", "ff176b000007020000000002"
ASK_0, ASK_1 = "000b3000" + "07020000000020" + "0000", "000b3100" + "07020000000021" + "0000"
TOLD_ONE, TOLD_TWO = "ff0b6b10000802000000000100", "ff1a6b10000802000000000100"
TOLD_0, TOLD_1 = "000d3000" + "07020000000010" + "0000", "000d3100" + "07020000000011" + "0000"
BOTH = request(ASK_TWO + ASK_1)


WORKED = [
    (
        "four bodies cross two links, and the later link's arrive first",
        scenario_of(
            [loop(4, queue(5)), send(0, 5), send(1, 5), send(0, 5), send(1, 5)]
            + [deliver(0, 1), deliver(1, 1), deliver(0), deliver(0), deliver(1)],
            links=2,
        ),
        [stored(), stored(), stored(0, 1), out("replay"), stored(2, 3)],
        {"released": {"5": [[0, 3]]}, "status": 0},
    ),
    (
        "after 4,096 bodies the first frame has the number of the window's start, and is a replay",
        scenario_of([loop(4096, queue(), send(), deliver(), *ACKED), deliver(0), by("sta", "ack_out", lane=0)]),
        [out("replay"), out("acked", start=0, stored=[])],
        {"released": {"0": [[0, 4095]]}, "starts": 4096, "steps": 4096 * 7 + 2},
    ),
    (
        "an ack request sends up what was sealed later, and the frame that it gave up is a replay",
        scenario_of(
            [queue(), queue(), send(), by("ap", "turn"), by("sta", "install"), send(), deliver(1)]
            + [by("ap", "bar_out", lane=0, to=1), by("sta", "bar_in"), deliver(0)]
        ),
        [stored(), out("barred", start=1), out("moved", up=[1]), out("replay")],
        {"released": {"0": [[1, 1]]}},
    ),
    (
        "without an ack request the frame under the older key goes up first",
        scenario_of([queue(), queue(), send(), by("ap", "turn"), by("sta", "install"), send(), deliver(1), deliver(0)]),
        [stored(), stored(0, 1)],
        {"released": {"0": [[0, 1]]}},
    ),
    (
        "the last packet number is used, a further booking is refused, and a turn of key begins again",
        scenario_of(
            [queue(), queue(), send(), send(), by("ap", "turn"), send()],
            first=[{"end": "ap", "key": 0, "pn": LAST_PN}],
        ),
        [out("booked", pos=0, key=0, pn=LAST_PN), out("put"), out("reserved"), out("spent", lane=0)]
        + [out("turned", key=1), out("reserved"), out("booked", pos=1, key=1, pn=1), out("put", retry=False)],
        {},
    ),
    (
        "a number far ahead moves the window, and what stood behind it is old",
        scenario_of([queue(), queue(), send(), send(), alter(100, 0), deliver(1), by("sta", "ack_out", lane=0)]),
        [out("stored", number=100, up=[]), out("oldnumber"), out("acked", start=37, stored=[100])],
        {"starts": 37, "released": {}},
    ),
    (
        "a frame that nobody booked ends the run",
        scenario_of([by("sta", "forge", link=0, lane=0, key=0, pn=9, number=0, body="ff")]),
        [],
        {"status": 5, "steps": 0, "written_as": scenario_of([])},
    ),
    (
        "a frame stored twice, given up with an ack request that sends it up",
        scenario_of(
            [loop(3, queue(), send()), deliver(1), deliver(1), by("ap", "bar_out", lane=0, to=1)]
            + [by("sta", "bar_in"), deliver(0)]
        ),
        [stored(), out("double"), out("barred", start=1), out("moved", up=[1]), out("replay")],
        {"released": {"0": [[1, 1]]}},
    ),
    (
        "an ack request with nothing stored, after which the lost frame is old",
        scenario_of(
            [loop(3, queue(), send()), by("ap", "bar_out", lane=0, to=1), by("sta", "bar_in"), deliver(0)]
        ),
        [out("barred", start=1), out("moved", up=[]), out("oldnumber")],
        {"released": {}},
    ),
    (
        "a full window, and a hand that is used too early",
        scenario_of([queue(), queue(), send(), send(), by("ap", "reserve", lane=1), by("ap", "book")], window=1),
        [out("put", pos=0), out("windowfull"), out("nothingqueued"), out("noreserve")],
        {"steps": 8},
    ),
    (
        "a hand that holds a reserve takes no other",
        scenario_of([queue(), by("ap", "reserve", lane=0), by("ap", "reserve", lane=0)]),
        [out("reserved"), out("handfull")],
        {},
    ),
    (
        "a body given up while the hand holds it isn't put, and what is only reserved can't be given up",
        scenario_of(
            [queue(), by("ap", "reserve", lane=0), by("ap", "bar_out", lane=0, to=1), by("ap", "book")]
            + [by("ap", "bar_out", lane=0, to=1), by("ap", "put", link=0), by("ap", "put", link=0)]
        ),
        [out("notbooked"), out("booked", pos=0), out("barred", start=1), out("nothing"), out("nothing")],
        {},
    ),
    (
        "with numbers altered, what goes up behind a newer key is dropped, however great its packet number",
        scenario_of(
            [loop(3, queue(), send()), by("ap", "turn"), by("sta", "install"), queue(), send()]
            + [alter(1), alter(2, 2), deliver(0), by("sta", "ack_out", lane=0)]
        ),
        [out("booked", key=1, pn=1), out("put"), stored(), stored(), stored(0, 3), out("acked", start=3, stored=[])],
        {"released": {"0": [[0, 0], [3, 3]]}},
    ),
    (
        "after the last key there is none to turn to or to install",
        scenario_of([by("ap", "turn"), by("sta", "install")], first=[{"end": "ap", "key": LAST_KEY, "pn": 1}]),
        [out("keysspent"), out("keysspent")],
        {"status": 0},
    ),
    (
        "a window of one waits for its acknowledgement",
        scenario_of(
            [queue(), queue(), send(), send(), deliver(), *ACKED, send(), deliver(), deliver(0)]
            + [by("ap", "ack_in", nth=0)],
            window=1,
        ),
        [out("windowfull"), stored(0), out("acked", start=1, stored=[]), out("done", count=1), out("reserved")]
        + [out("booked", pos=1, pn=2), out("put"), stored(1), out("replay"), out("done", count=0)],
        {"released": {"0": [[0, 1]]}, "steps": 15},
    ),
    (
        "who answers has the new mapping, and who asked the old one until the answer arrives",
        scenario_of([map_ask("sta", change("up", 1)), *carried("sta"), map_ask("sta", change("up", 1))], links=2),
        [out("asked", token=1), out("reserved", lane="m"), out("booked", lane="m", pos=0, key=0, pn=1)]
        + [out("put", lane="m", pos=0, retry=False), out("stored", lane="m", number=0, up=[0]), out("busy", token=1)],
        {
            "dl": [[3] * 8, [3] * 8],
            "ul": [[1] * 8, [3] * 8],
            "made": [["2501010000"], [ASKED_UP + "0100" * 8]],
        },
    ),
    (
        "a radio that is off sends nothing and hears nothing, and what it kept goes over another link",
        scenario_of(
            [queue(), power("ap", 1, False), send(1), power("sta", 0, False), by("ap", "again", link=0, lane=0, pos=0)]
            + [deliver(), power("sta", 0, True), deliver()],
            links=2,
        ),
        [out("set", link=1, on=False), out("reserved"), out("booked", pos=0)]
        + [out("kept", lane=0, pos=0, why="unpowered"), out("set", link=0, on=False)]
        + [out("put", key=0, pn=1, retry=False), out("linkdown"), out("set", on=True), stored(0)],
        {"links": [[0, 1], [0, 1]]},
    ),
    (
        "octets that are addressed to the other end, that no key opens, of no key held, and that aren't a frame",
        scenario_of([inject(SHUT, "ap"), inject(SHUT), inject(SHUT[:58] + "60" + SHUT[60:]), inject("00"), inject("")]),
        [bad("WrongAddress", 4), out("notopened", size=35), out("nokey", size=35), bad("Short", 0)]
        + [out("badframe", why="Short", place=0, size=0)],
        {"status": 0},
    ),
    (
        "a stranger's frame is refused at its second address; with the radio off only what isn't a frame is refused",
        scenario_of(
            [inject(from_ap("aa", sender="30")), power("sta", 0, False), inject(from_ap("aa", sender="30"))]
            + [inject("00")]
        ),
        [bad("WrongAddress", 10), out("set"), out("linkdown"), bad("Short", 0)],
        {},
    ),
    (
        "where both ends have one address, data that an end hears in its own direction is refused",
        {**scenario_of([inject(from_ap("aa", "10"), "ap"), inject(from_ap("aa", "10"))]), "links": [ALIKE]},
        [bad("WrongAddress", 1), out("notopened")],
        {},
    ),
    (
        "the octets that were aired are heard as if they were delivered, and are a replay from then on",
        scenario_of([queue(), send(), inject(FIRST), inject(FIRST), deliver(), inject(FIRST[:-1] + "8")]),
        [out("stored", lane=0, number=0, size=43, up=[0]), out("replay"), out("replay"), out("notopened")],
        {"released": {"0": [[0, 0]]}},
    ),
    (
        "the same octets end the run where the sender has booked another body",
        scenario_of([queue(body="5b"), by("ap", "reserve", lane=0), inject(SHUT), by("ap", "book"), inject(FIRST)]),
        [out("notopened"), out("booked", pos=0, key=0, pn=1)],
        {"status": 5, "steps": 4},
    ),
    (
        "a frame has its numbers lowest octet first, and a retry has the same payload and its mark",
        scenario_of(
            [queue(5), send(0, 5), by("ap", "again", link=0, lane=5, pos=0)],
            first=[{"end": "ap", "key": 513, "pn": 0x010203040506}],
        ),
        [out("put", key=513, pn=0x010203040506, retry=False), out("put", retry=True)],
        {"aired": [["88" + flags + FIFTH for flags in ("42", "4a")], []]},
    ),
    (
        "what isn't sealed of a frame may be anything: marks, duration, third address, sequence number, spare bits",
        scenario_of(
            [queue(), send()]
            + [inject("887affff" + FIRST[8:32] + "f" * 12 + "1000" + "70ff" + "0100ff3f00000000" + FIRST[68:])]
        ),
        [out("stored", number=1, up=[])],
        {},
    ),
    (
        "octets that were aired 4,096 bodies ago are a replay",
        scenario_of([loop(4096, queue(), send(), deliver(), *ACKED), inject(FIRST)]),
        [out("done", count=1), out("replay", size=43)],
        {"starts": 4096},
    ),
    (
        "what is booked opens before it is aired, and a teardown of the peer leaves the own ask standing",
        scenario_of(
            [map_ask("ap", change("up", 1)), by("sta", "map_teardown"), by("sta", "reserve", lane="m")]
            + [by("sta", "book"), inject(TEARDOWN, "ap"), map_ask("ap", change("up", 1))]
            + [by("ap", "give_up", what="map")],
        ),
        [out("booked", lane="m", pos=0), out("stored", lane="m", number=0, size=42, up=[0]), out("busy", token=1)]
        + [out("given", token=1)],
        {"made": [[ASKED_UP + "0100" * 8], ["2502"]]},
    ),
    (
        "an end that denies every ask leaves both mappings, and its answer closes the ask",
        scenario_of([*settled("sta", change("up", 1)), by("sta", "give_up", what="map")], links=2, deny=["ap"]),
        [out("stored", lane="m", up=[0]), out("nothing", what="map")],
        {"dl": [[3] * 8, [3] * 8], "ul": [[3] * 8, [3] * 8], "made": [["2501018500"], [ASKED_UP + "0100" * 8]]},
    ),
    (
        "asks that cross are both denied, and each end counts its own tokens",
        scenario_of(
            [map_ask("ap", change("down", 1)), map_ask("sta", change("up", 2)), *carried("ap"), *carried("sta")]
            + [*carried("ap"), *carried("sta"), by("sta", "give_up", what="map"), map_ask("ap", change("down", 1))],
            links=2,
        ),
        [out("stored", lane="m", up=[1]), out("nothing"), out("asked", token=2)],
        {
            "dl": [[3] * 8, [3] * 8],
            "ul": [[3] * 8, [3] * 8],
            "made": [
                ["250001ff136d00ff" + "0100" * 8, "2501018500", "250002ff136d00ff" + "0100" * 8],
                [ASKED_UP + "0200" * 8, "2501018500"],
            ],
        },
    ),
    (
        "an answer that arrives after the own teardown changes nothing, and the peer keeps what it answered",
        scenario_of(
            [map_ask("sta", change("up", 1)), *carried("sta"), by("sta", "map_teardown"), *carried("ap")]
            + [by("sta", "give_up", what="map")],
            links=2,
        ),
        [out("sent"), out("reserved"), out("booked", pos=0), out("put"), stored(0), out("nothing")],
        {"ul": [[1] * 8, [3] * 8]},
    ),
    (
        "a teardown that overtakes the answer before it leaves an ask that no answer closes",
        scenario_of(
            [map_ask("sta", change("up", 1)), *carried("sta"), by("ap", "map_teardown"), send(0, "m"), send(1, "m")]
            + [deliver(link=1), deliver(), map_ask("sta", change("up", 1))],
            links=2,
        ),
        [out("stored", lane="m", number=1, up=[1]), out("replay"), out("busy", token=1)],
        {"ul": [[3] * 8, [3] * 8], "made": [["2501010000", "2502"], [ASKED_UP + "0100" * 8]]},
    ),
    (
        "an answer to an ask that was given up doesn't close the next one",
        scenario_of(
            [map_ask("sta", change("up", 1)), *carried("sta"), by("sta", "give_up", what="map")]
            + [map_ask("sta", change("down", 2)), *carried("ap"), by("sta", "give_up", what="map")],
            links=2,
        ),
        [out("asked", token=2), out("reserved"), out("booked"), out("put"), stored(0), out("given", token=2)],
        {"dl": [[3] * 8, [3] * 8], "ul": [[1] * 8, [3] * 8]},
    ),
    (
        "data goes by the mapping of its own direction, and management over each link that has a TID in one",
        scenario_of(
            [*settled("sta", change("up", 1)), queue(3), send(1, 3), queue(3, end="sta"), send(1, 3, "sta")]
            + [by("sta", "again", link=0, lane=3, pos=0), map_ask("sta", change("down", 1)), send(1, "m", "sta")],
            links=2,
        ),
        [out("booked", pos=0), out("put", lane=3), out("queued"), out("reserved"), out("booked")]
        + [out("kept", why="unmapped"), out("put", link=0, retry=False), out("asked", token=2), out("reserved")]
        + [out("booked"), out("put", lane="m", pos=1)],
        {"dl": [[3] * 8, [3] * 8], "ul": [[1] * 8, [1] * 8]},
    ),
    (
        "a teardown of the peer makes both directions the default again",
        scenario_of(
            [*settled("ap", change("down", 1)), queue(), send(1), map_ask("sta", {"dir": "up", "default": True})]
            + [send(1, "m", "sta"), by("ap", "map_teardown"), by("ap", "again", link=1, lane=0, pos=0), *carried("ap")],
            links=2,
        ),
        [out("kept", why="unmapped"), out("asked", token=1), out("reserved"), out("booked", lane="m", pos=1)]
        + [out("put", lane="m"), out("sent"), out("put", lane=0), out("reserved"), out("booked", pos=1), out("put")]
        + [stored(1)],
        {"dl": [[3] * 8, [3] * 8], "ul": [[3] * 8, [3] * 8]},
    ),
    (
        "where no TID uses a link in either direction, management is kept off it too",
        scenario_of(
            [*settled("sta", change("both", 1)), map_ask("sta", {"dir": "down", "default": True}), send(1, "m", "sta")]
            + [by("sta", "again", link=0, lane="m", pos=1), by("sta", "put", link=0)],
            links=2,
        ),
        [out("asked", token=2), out("reserved"), out("booked", lane="m", pos=1)]
        + [out("kept", lane="m", pos=1, why="unmapped"), out("put", retry=False), out("nothing")],
        {
            "dl": [[1] * 8, [1] * 8],
            "ul": [[1] * 8, [1] * 8],
            "made": [["2501010000"], ["250001ff136d02ff" + "0100" * 8, "250002ff026d04"]],
        },
    ),
    (
        "a TID that isn't named keeps its links, and the downlink is asked for first",
        scenario_of(
            settled("sta", change("up", 1, *[None] * 7))
            + settled("sta", change("up", *[None] * 7, 2), change("down", *[None] * 3, 1, 2, *[None] * 3)),
            links=2,
        ),
        [out("stored", lane="m", number=1, up=[1])],
        {
            "dl": [[3, 3, 3, 1, 2, 3, 3, 3]] * 2,
            "ul": [[1, 3, 3, 3, 3, 3, 3, 2]] * 2,
            "made": [
                ["2501010000", "2501020000"],
                ["250001ff056d01010100", "250002ff076d001801000200ff056d01800200"],
            ],
        },
    ),
    (
        "what isn't a mapping is no ask and counts no token",
        scenario_of(
            [map_ask("ap"), map_ask("ap", change("up", 1), change("up", 1))]
            + [map_ask("ap", change("both", 1), change("up", 1))]
            + [map_ask("ap", change("up", *[None] * 7, links)) for links in (0, 4, 5, 0x8001)]
            + [map_ask("ap", change("up", *[None] * 8))],
            links=2,
        ),
        [out("notvalid")] * 7 + [out("asked", token=1)],
        {"made": [["250001ff036d0100"], []]},
    ),
    (
        "the token after 255 is 1",
        scenario_of(
            [loop(255, map_ask("sta", change("up", 1)), by("sta", "give_up", what="map"))]
            + [map_ask("sta", change("up", 1))]
        ),
        [out("asked", token=255), out("given", token=255), out("asked", token=1)],
        {"steps": 511},
    ),
    (
        "sixteen management bodies are sent before the first is acknowledged, and data has its own window",
        scenario_of(
            [loop(17, by("ap", "map_teardown"), send(0, "m")), queue(), send(), deliver(0)]
            + [by("sta", "ack_out", lane="m"), by("ap", "ack_in"), send(0, "m"), deliver(15), deliver(14)],
            window=1,
        ),
        [out("sent"), out("windowfull", lane="m"), out("queued"), out("reserved"), out("booked", lane=0, pn=17)]
        + [out("put"), stored(0), out("acked", lane="m", start=1, stored=[]), out("done", count=1), out("reserved")]
        + [out("booked", lane="m", pos=16, pn=18), out("put"), stored(15), out("replay")],
        {"released": {"m": [[0, 0], [15, 15]]}},
    ),
    (
        "without a link set up there is no mapping to ask for or to tear down, and nothing is sent, radio on or off",
        scenario_of(
            [map_ask("ap", {"dir": "up", "default": True}), by("sta", "map_teardown"), by("ap", "give_up", what="map")]
            + [queue(), power("ap", 0, False), send()],
            associated=False,
        ),
        [out("notvalid"), out("notvalid"), out("nothing"), out("queued"), out("set"), out("reserved"), out("booked")]
        + [out("kept", why="notsetup")],
        {"links": [[], []], "dl": [[0] * 8] * 2, "ul": [[0] * 8] * 2},
    ),
]

# What takes an association, which the program doesn't make yet.
ASSOCIATING = [
    (
        "both ends set up the link that the AP accepts, and nothing is sent before",
        scenario_of(
            [queue(), send(), associate(0, 0, 1), deliver(end="ap"), deliver()], links=2, associated=False, accept=[0]
        ),
        [out("kept", lane=0, pos=0, why="notsetup"), out("asked", link=0, links=[0, 1]), out("setup", status=0)]
        + [out("setup", link=0, nth=None, status=0)],
        {
            "links": [[0], [0]],
            "dl": [[1] * 8, [1] * 8],
            "ul": [[1] * 8, [1] * 8],
            "aired": [[response("0000", TOLD_TWO + TOLD_1 + "2500")], [BOTH]],
        },
    ),
    (
        "where the carrying link is declined none is set up, and the station may ask again over another",
        scenario_of(
            [associate(0, 0, 1), deliver(end="ap"), deliver(), deliver()]
            + [associate(1, 0, 1, elements="000161"), deliver(link=1, end="ap"), deliver(link=1)],
            links=2,
            associated=False,
            accept=[1],
        ),
        [out("setup", status=37), out("setup", status=37), out("ignored"), out("asked"), out("setup", status=0)]
        + [out("setup", status=0)],
        {
            "links": [[1], [1]],
            "aired": [
                [
                    response("2500", TOLD_TWO + TOLD_1 + "0100"),
                    response("0000", TOLD_TWO[:-2] + "01" + TOLD_0 + "2500", 1),
                ],
                [BOTH, request("000161" + ASK_TWO + ASK_0, 1)],
            ],
        },
    ),
    (
        "a station asks for links that are there, the carrying one too, with its radio on, and once joined no more",
        scenario_of(
            [power("sta", 0, False), associate(0, 1), associate(0), associate(0, 0, 2), associate(0, 0)]
            + [power("sta", 0, True), associate(0, 0), power("ap", 0, False), deliver(end="ap")]
            + [power("ap", 0, True), deliver(end="ap"), deliver(), associate(0, 1)],
            links=2,
            associated=False,
        ),
        [out("notvalid", links=[1]), out("notvalid", links=[]), out("notvalid"), out("unpowered"), out("set")]
        + [out("asked"), out("set"), out("linkdown"), out("set"), out("setup", status=0), out("setup", status=0)]
        + [out("joined", links=[1])],
        {"links": [[0], [0]], "aired": [[response("0000", TOLD_ONE)], [request(ASK_ONE)]]},
    ),
    (
        "a station that asked twice takes the reply to its first ask for the second, and has fewer links than the AP",
        scenario_of(
            [associate(0, 0, 1), associate(0, 0), deliver(0, end="ap"), deliver(1, end="ap"), deliver(0), deliver(1)]
            + [queue(), send(1), deliver(link=1), queue(end="sta"), send(1, end="sta")]
            + [map_ask("ap", change("down", 2)), *carried("ap")]
            + [by("sta", "again", link=0, lane=0, pos=0), deliver(end="ap")],
            links=2,
            associated=False,
        ),
        [out("setup", status=0), out("setup", status=1), out("setup", status=0), out("ignored"), out("queued")]
        + [out("reserved"), out("booked"), out("put"), out("linkdown"), out("queued"), out("reserved"), out("booked")]
        + [out("kept", why="notsetup"), out("asked"), out("reserved"), out("booked"), out("put"), stored(0), out("put")]
        + [stored(0)],
        {"links": [[0, 1], [0]], "dl": [[3] * 8, [1] * 8], "made": [["250001ff136d00ff" + "0200" * 8], ["2501018500"]]},
    ),
    (
        "the ask by which the AP became associated gets the same reply again, whatever radios are on by then",
        scenario_of(
            [power("ap", 1, False), associate(0, 0, 1), deliver(end="ap"), power("ap", 1, True), alter(5, end="ap")]
            + [deliver()],
            links=2,
            associated=False,
        ),
        [out("setup", status=0), out("set"), out("setup", number=5, status=0), out("setup", status=0)],
        {"links": [[0], [0]], "aired": [[response("0000", TOLD_TWO + TOLD_1 + "2500")] * 2, [BOTH]]},
    ),
    (
        "an AP that began associated refuses each link of a request, one that isn't there too",
        scenario_of(
            [inject(BOTH, "ap"), inject(request(ASK_TWO + "000b3500" + "070200000000ff" + "0000"), "ap"), deliver()],
            links=2,
        ),
        [out("setup", size=53, status=1), out("setup", size=53, status=1), out("ignored")],
        {
            "links": [[0, 1], [0, 1]],
            "aired": [
                [
                    response("0100", TOLD_TWO + TOLD_1 + "0100"),
                    response("0100", "ff146b1000" + TOLD_TWO[10:] + "00071500" + "01" + "0000" + "0100"),
                ],
                [],
            ],
        },
    ),
    (
        "the AP ignores another device, a profile without address, twice or of the carrying link, and what isn't whole",
        scenario_of(
            [
                inject(octets, "ap")
                for octets in (
                    request(ASK_ONE[:-1] + "1"),
                    request("ff116b0000" + ASK_ONE[10:] + "00051100" + "01" + "0000"),
                    request(ASK_TWO + ASK_0),
                    request("ff246b0000" + ASK_ONE[10:] + ASK_1 * 2),
                    request("000161"),
                    BOTH[:-2],
                    BOTH.replace("00", "10", 1),
                    request(ASK_TWO + "000b2100" + "07020000000099" + "0000"),
                )
            ],
            links=2,
            associated=False,
        ),
        [out("ignored")] * 7 + [out("setup", status=0)],
        {"links": [[0], []], "aired": [[response("0000", TOLD_TWO + TOLD_1 + "2600")], []]},
    ),
    (
        "the station ignores a response over another link, with its own link's profile, or not whole, and no other",
        scenario_of(
            [inject(response("0000", TOLD_ONE)), associate(0, 0, 1)]
            + [inject(response("0000", TOLD_ONE, 1), link=1), inject(response("0000", TOLD_ONE)[:-2])]
            + [inject(response("0000", TOLD_TWO + TOLD_0 + "0000"))]
            + [inject(response("0000", "ff0a6b0000" + "070200000000ee")), inject(response("0000", TOLD_ONE))],
            links=2,
            associated=False,
        ),
        [out("ignored"), out("asked"), *[out("ignored")] * 3, out("setup", status=0), out("ignored")],
        {"links": [[], [0]]},
    ),
    (
        "of a response only what was asked for is set up, and nothing where the carrying link failed",
        scenario_of(
            [associate(0, 0, 1), inject(response("0100", TOLD_TWO + TOLD_1 + "0000"))]
            + [associate(0, 0, 2), inject(response("0000", TOLD_TWO + TOLD_1 + "0000"))],
            links=3,
            associated=False,
        ),
        [out("asked"), out("setup", status=1), out("asked"), out("setup", status=0)],
        {"links": [[], [0]]},
    ),
]
