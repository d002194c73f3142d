"""Scenarios for the model in two_ends.py: the commands that they are made of, and random and long ones."""

import random

from lines import Maker, Refused, elements_of
from machines import has
from octets import ASK, DATA, PROTECTED, REPLY, association_ask, association_reply, low, profile
from two_ends import AHEAD, LANES, LAST_KEY, LAST_PN, NUMBERS, PEER, Forged, Model


def scenario_of(commands, links=1, ids=None, **members):
    """A scenario over so many links, or over links with these IDs."""
    entries = [
        {"id": link, "ap": f"02000000001{link:x}", "sta": f"02000000002{link:x}"}
        for link in (range(links) if ids is None else ids)
    ]
    return {
        "version": 1,
        "ap": "020000000001",
        "sta": "020000000002",
        "key": "000102030405060708090a0b0c0d0e0f",
        "links": entries,
        **members,
        "before": commands,
    }


def by(end, do, **members):
    """A command. A member that is None is left out."""
    given = {name: value for name, value in members.items() if value is not None}
    return {"do": do, "end": end, **given}


def loop(times, *body):
    return {"do": "loop", "times": times, "body": list(body)}


def queue(tid=0, body="5a", end="ap"):
    return by(end, "queue", tid=tid, body=body)


def send(link=0, lane=0, end="ap"):
    return by(end, "send", link=link, lane=lane)


def deliver(nth=None, link=0, end="sta"):
    return by(end, "deliver", link=link, nth=nth)


def alter(number, nth=None, link=0, end="sta"):
    return by(end, "alter", link=link, nth=nth, number=number)


def power(end, link, on):
    return by(end, "power", link=link, on=on)


def associate(link, *links, elements=None):
    return by("sta", "associate", link=link, links=list(links), elements=elements)


def map_ask(end, *entries):
    return by(end, "map_ask", entries=list(entries))


ACKED = [by("sta", "ack_out", lane=0), by("ap", "ack_in")]


class Intruder:
    """Writes octets that somebody puts on a link: copies of what was aired, changed or not, and others."""

    KINDS = {
        "copy": 5, "spoiled": 8, "cut": 2, "astray": 3, "moved": 2, "sealed": 2, "association": 3, "noise": 1,
    }  # fmt: skip

    def __init__(self, source, model):
        self.source, self.model = source, model

    def octets(self, name, link):
        """What the end is to hear on the link. Where it isn't associated yet, that is often an association frame."""
        kind = self.source.choices(list(self.KINDS), list(self.KINDS.values()))[0]
        if not self.model.ends[name].links and self.source.random() < 0.5:
            kind = "association"
        return getattr(self, kind)(name, link)

    def copy(self, name, link):
        """A frame that the peer put on the link, of any age or one of the last."""
        frames = self.model.ends[PEER[name]].air[link]
        return self.source.choice(self.source.choice([frames, frames[-4:]]))[0] if frames else self.noise(name, link)

    def spoiled(self, name, link):
        """A frame with one octet changed: any, or one with flags in it."""
        octets = bytearray(self.copy(name, link))
        if octets:
            at = self.source.choice([self.source.randrange(len(octets)), self.source.choice([0, 1, 1, 22, 24, 27, 29])])
            change = self.source.choice([1 << self.source.randrange(8), self.source.randint(1, 255)])
            octets[min(at, len(octets) - 1)] ^= change
        return bytes(octets)

    def cut(self, name, link):
        """A frame without its end, or with a longer one."""
        octets = self.copy(name, link)
        if self.source.random() < 0.1:
            return octets + self.source.randbytes(self.source.randint(1, 3))
        return octets[: self.source.randrange(self.source.choice([37, len(octets) + 1]))]

    def astray(self, _name, _link):
        """A frame that either end put on any link."""
        end = self.model.ends[self.source.choice(list(PEER))]
        frames = [octets for aired in end.air.values() for octets, _ in aired]
        return self.source.choice(frames) if frames else b""

    def moved(self, name, link):
        """A frame of the peer from any link, with the addresses of this one."""
        frames = [octets for aired in self.model.ends[PEER[name]].air.values() for octets, _ in aired]
        if not frames:
            return self.noise(name, link)
        octets = self.source.choice(frames)
        return octets[:4] + self.model.ways[PEER[name]].header(link, DATA)[4:16] + octets[16:]

    def sealed(self, name, link):
        """What the peer booked, aired or not, with header fields that aren't sealed; at times what it didn't book."""
        bookings = list(self.model.ends[PEER[name]].bookings.values())
        if not bookings:
            return self.noise(name, link)
        booking = self.source.choice([self.source.choice(bookings), bookings[-1]])
        lane, pn, body = booking.lane, booking.pn, booking.body
        if self.source.random() < 0.03:
            strange = [(lane, 0, body), (lane, pn, b""), (self.source.choice(LANES), pn, body)]
            lane, pn, body = self.source.choice(strange)
        frame = self.model.ways[PEER[name]].frame(link, lane, booking.key, pn, booking.pos % NUMBERS, body)
        octets = bytearray(frame)
        octets[1] |= self.source.randrange(8) << 3
        octets[2:4] = self.source.randbytes(2)
        if self.source.random() < 0.5:
            octets[16:22] = self.source.randbytes(6)
        if lane != "m":
            octets[24] |= self.source.randrange(8) << 4
            octets[25] = self.source.randrange(256)
        return bytes(octets)

    def association(self, name, link):
        """An association frame, at times of the kind that the peer doesn't send, marked as protected, or spoiled."""
        source, maker = self.source, Maker(self.source)
        asks = (name == "ap") == (source.random() < 0.9)
        header = bytearray(self.model.ways[PEER[name]].header(link, ASK if asks else REPLY))
        if source.random() < 0.05:
            header[1] |= PROTECTED
        body = self.request(link) if asks else self.response(link)
        if source.random() < 0.15:
            body = source.randbytes(4 if asks else 6) + maker.association(2 if asks else 4)
        return bytes(header) + maker.spoiled(body)

    def links(self, link):
        """Some links beside the one that carries a frame, ascending or not; at times that one too, or a stranger."""
        source = self.source
        others = [other for other in self.model.links if other != link]
        links = source.sample(others, source.randint(0, len(others)))
        if source.random() < 0.15:
            links.append(source.choice([link, source.randrange(15), *links]))
        return links

    def address(self, link):
        """The station's address on a link; at times none, or another one."""
        addresses = self.model.ways["sta"].links.get(link, {"sta": self.source.randbytes(6)})
        kind = self.source.random()
        return addresses["sta"] if kind < 0.8 else None if kind < 0.88 else self.source.randbytes(6)

    def profile(self, link, address, fixed):
        """A profile, at times one that isn't complete, with elements, or without all of its fixed fields."""
        kind, maker = self.source.random(), Maker(self.source)
        if kind < 0.2:
            fixed += b"".join(maker.plain_element() for _ in range(self.source.randint(1, 2)))
        return profile(link, address, fixed[:-1] if kind > 0.95 else fixed, self.source.random() < 0.8)

    def request(self, link):
        """A request in the station's name: mostly one that it might have made."""
        mld = self.model.ways["sta"].mld["sta" if self.source.random() < 0.9 else "ap"]
        return association_ask(mld, [self.profile(other, self.address(other), bytes(2)) for other in self.links(link)])

    def response(self, link):
        """A response in the AP's name: it grants all links, or some, or none."""
        source, mlds = self.source, self.model.ways["ap"].mld
        statuses = [0] if source.random() < 0.3 else [0, 0, 1, 37, 38, 38, source.randrange(2**16)]
        told = [(other, low(0, 2) + low(source.choice(statuses), 2)) for other in self.links(link)]
        others = [self.profile(other, self.address(other), fixed) for other, fixed in told]
        return association_reply(source.choice([*mlds.values()]), link, source.choice(statuses), others)

    def noise(self, name, link):
        """Octets at random, or a random frame to the end."""
        if self.source.random() < 0.3:
            octets = Maker(self.source).frame()
            return octets[:4] + self.model.ways[PEER[name]].header(link, DATA)[4:16] + octets[16:]
        sizes = [0, 1, self.source.randint(0, 60), self.source.randint(23, 36), 4096]
        return self.source.randbytes(self.source.choices(sizes, [1, 1, 4, 4, 0.1])[0])


class Author:
    """Writes a random scenario, at will one in which the ends associate. It watches the model, so that its commands
    meet what is near."""

    KINDS = {
        "queue": 7, "send": 9, "reserve": 1, "book": 0.5, "put": 0.5, "again": 3, "deliver": 14, "alter": 3,
        "forge": 2, "inject": 5, "ack_out": 4, "ack_in": 4, "bar_out": 2, "bar_in": 3, "install": 0.1, "turn": 0.4,
        "power": 1, "associate": 0.3, "map_ask": 1.5, "map_teardown": 0.4, "give_up": 0.4,
    }  # fmt: skip
    HEARD = ("deliver", "alter", "forge", "inject", "ack_out", "bar_in", "install")

    def __init__(self, source, associates=False):
        self.source, self.associates = source, associates
        self.kinds = {kind: weight for kind, weight in self.KINDS.items() if associates or kind != "associate"}
        ids = sorted(source.sample(range(15), source.randint(1, 4)))
        self.scenario = scenario_of([], ids=ids, **self.members(ids))
        if source.random() < 0.05:
            for link in self.scenario["links"]:
                link["sta"] = link["ap"]
        self.model = Model(self.scenario, associates)
        self.intruder = Intruder(source, self.model)
        self.lanes = source.sample(range(8), source.randint(1, 3))
        self.ap_share = source.choice([0.1, 0.5, 0.9, 0.9])

    def members(self, ids):
        """The members of the scenario that may be left out."""
        source, members = self.source, {}
        window = source.choice([None, 1, 2, 3, 8, 64, 256])
        if window is not None:
            members["window"] = window
        if source.random() < 0.3:
            key = source.choice([0, 1, 5, LAST_KEY - 1, LAST_KEY])
            pns = [1, 1, 7, 2**32, LAST_PN - 20, LAST_PN]
            members["first"] = [{"end": name, "key": key, "pn": source.choice(pns)} for name in ("sta", "ap")]
            if source.random() < 0.3:
                members["first"][0]["key"] = max(0, key - 1)
            if source.random() < 0.3:
                members["first"].pop(source.randrange(2))
        if source.random() < 0.45:
            members["associated"] = source.random() < (0.2 if self.associates else 0.8)
        if source.random() < 0.3:
            members["accept"] = sorted(source.sample(ids, source.choice([0, *[*range(1, len(ids) + 1)] * 3])))
        if source.random() < 0.3:
            members["deny"] = source.choice([[], ["ap"], ["sta"], ["sta", "ap"]])
        return members

    def near(self, count):
        """An index near the end of so many, at times past it; or None for the latest."""
        kind = self.source.random()
        if kind < 0.5:
            return None
        return self.source.randint(0, count) if kind < 0.6 else max(0, count - self.source.randint(0, 8))

    def number(self, receiving, usual):
        """A sequence number: the usual one, one about the window's edges, or any."""
        edges = [-1, 0, 1, 2, receiving.size - 1, receiving.size, receiving.size + 1]
        far = [AHEAD - 2, AHEAD - 1, AHEAD, AHEAD + 1, self.source.randrange(NUMBERS)]
        edge = self.source.choice(edges if self.source.random() < 0.9 else far)
        return self.source.choice([usual, receiving.start + edge, receiving.start + edge]) % NUMBERS

    def lane(self, end):
        """A lane: often that of management where something waits in it."""
        waits = end.sending["m"].granted < len(end.sending["m"].queue)
        if self.source.random() < (0.5 if waits else 0.1):
            return "m"
        return self.source.choice(self.lanes) if self.source.random() < 0.95 else self.source.randrange(8)

    def link(self, end=None, lane=None):
        """A link: mostly one that the lane's frames may go over, where the lane is told."""
        links = self.model.links
        if lane is not None and self.source.random() < 0.6:
            links = [link for link in links if end.why_kept(link, lane) is None] or links
        return self.source.choice(links)

    def link_heard(self, name):
        """A link: mostly one that the peer has put something on."""
        used = [link for link, frames in self.model.ends[PEER[name]].air.items() if frames]
        return self.source.choice(used) if used and self.source.random() < 0.9 else self.link()

    def frame(self, name, link):
        """The index of a frame on the link: often one that a window of the receiver waits for."""
        frames, receiving = self.model.ends[PEER[name]].air[link], self.model.ends[name].receiving
        booked = [(i, booking) for i, (_, booking) in enumerate(frames) if booking]
        waited = [i for i, booking in booked if booking.pos == receiving[booking.lane].start]
        return self.source.choice(waited) if waited and self.source.random() < 0.4 else self.near(len(frames))

    # A command of each kind, by the end of this name.

    def queue(self, name):
        return queue(self.source.choice(self.lanes), self.source.randbytes(self.source.randint(1, 30)).hex(), name)

    def send(self, name):
        end = self.model.ends[name]
        lane = self.lane(end)
        return send(self.link(end, lane), lane, name)

    def reserve(self, name):
        return by(name, "reserve", lane=self.lane(self.model.ends[name]))

    def book(self, name):
        return by(name, "book")

    def put(self, name):
        end = self.model.ends[name]
        return by(name, "put", link=self.link(end, end.booking.lane if end.booking else None))

    def again(self, name):
        """Mostly a booking that isn't done, often one that wasn't aired yet."""
        end = self.model.ends[name]
        lanes = [lane for lane in LANES if end.sending[lane].base < len(end.sending[lane].bookings)]
        lane = self.source.choice(lanes) if lanes and self.source.random() < 0.7 else self.lane(end)
        sending = end.sending[lane]
        waiting = [booking for booking in sending.bookings[sending.base :] if not booking.done]
        kept = [booking for booking in waiting if not booking.aired]
        pos = self.source.randint(0, len(sending.bookings))
        if waiting and self.source.random() < 0.8:
            pos = self.source.choice(self.source.choice([waiting, kept or waiting])).pos
        return by(name, "again", link=self.link(end, lane), lane=lane, pos=pos)

    def deliver(self, name):
        link = self.link_heard(name)
        return deliver(self.frame(name, link), link, name)

    def alter(self, name):
        link = self.link_heard(name)
        nth = self.frame(name, link)
        aired = self.model.find(self.model.ends[PEER[name]].air[link], nth)
        lane = aired[1].lane if aired and aired[1] else 0
        return alter(self.number(self.model.ends[name].receiving[lane], 0), nth, link, name)

    def forge(self, name):
        """Mostly a copy of a booking of the peer; at times under another key, or what nobody booked."""
        end, peer = self.model.ends[name], self.model.ends[PEER[name]]
        bookings = list(peer.bookings.values())[-12:]
        if not bookings:
            return by(name, "install")
        booking = self.source.choice(bookings)
        members = {"lane": booking.lane, "key": booking.key, "pn": booking.pn, "body": booking.body.hex()}
        members["number"] = self.number(end.receiving[booking.lane], booking.pos)
        kind = self.source.random()
        if kind < 0.02:
            lanes = [lane for lane in LANES if lane != booking.lane]
            strange = [{"pn": LAST_PN}, {"body": "ff" * 9}, {"lane": self.source.choice(lanes)}]
            members.update(self.source.choice(strange))
        elif kind < 0.2:
            other = booking.key + self.source.choice([-2, -1, 1, 2])
            if 0 <= other <= LAST_KEY and end.held(other % 2) != other:
                members["key"] = other
        return by(name, "forge", link=self.link(), **members)

    def inject(self, name):
        link, setup = self.link_heard(name), self.model.ends["sta"].setup
        if name == "sta" and setup.asked and self.source.random() < 0.6:
            link = setup.asked[0]
        digits = self.intruder.octets(name, link)[:4096].hex()
        return by(name, "inject", link=link, hex=digits.upper() if self.source.random() < 0.05 else digits)

    def ack_out(self, name):
        return by(name, "ack_out", lane=self.lane(self.model.ends[PEER[name]]))

    def ack_in(self, name):
        return by(name, "ack_in", nth=self.near(len(self.model.ends[PEER[name]].acks)))

    def bar_out(self, name):
        end = self.model.ends[name]
        lane = self.lane(end)
        sending = end.sending[lane]
        near = [sending.base + self.source.randint(-1, 3), len(sending.bookings) + self.source.randint(-1, 1)]
        return by(name, "bar_out", lane=lane, to=max(0, self.source.choice(near)))

    def bar_in(self, name):
        return by(name, "bar_in", nth=self.near(len(self.model.ends[PEER[name]].requests)))

    def install(self, name):
        return by(name, "install")

    def turn(self, name):
        return by(name, "turn")

    def power(self, name):
        """Mostly a radio that is off is put on again."""
        link = self.link()
        off = [link for link in self.model.links if not has(self.model.ends[name].radios, link)]
        if off and self.source.random() < 0.6:
            link = self.source.choice(off)
        return power(name, link, self.source.random() < (0.9 if link in off else 0.2))

    def associate(self, _name):
        """An ask of the station: mostly for links that are there, and often over the link of the last one."""
        source, links, last = self.source, self.model.links, self.model.ends["sta"].setup.asked
        link = last[0] if last and source.random() < 0.5 else source.choice(links)
        asked = sorted({link, *source.sample(links, source.randint(0, len(links)))})
        if source.random() < 0.1:
            asked = source.choice([sorted({*asked, source.randrange(15)}), [other for other in asked if other != link]])
        return associate(link, *asked, elements=self.elements())

    def elements(self):
        """A list of elements without a Multi-Link element, of at most 1,024 octets. Mostly none."""
        maker = Maker(self.source)
        if self.source.random() < 0.6:
            return None
        octets = b"".join(maker.plain_element() for _ in range(self.source.randint(0, 4)))
        if self.source.random() < 0.2:
            octets += maker.pieces(221, self.source.randbytes(self.source.choice([255, 256, 1016])), 242)
        try:
            elements_of(octets)
        except Refused:
            return None
        return octets.hex() if len(octets) <= 1024 else None

    def sets(self):
        """Eight sets of links: mostly some of those that are there, all TIDs alike or not; at times none or others."""
        source, links = self.source, self.model.links
        some = [sum(1 << link for link in source.sample(links, source.randint(1, len(links)))) for _ in range(8)]
        named = source.choice([1, 0.8, 0.3])
        sets = [links if source.random() < named else None for links in some]
        if source.random() < 0.5:
            sets = [some[0]] * 8
        if source.random() < 0.1:
            sets[source.randrange(8)] = source.choice([0, 2**15, 2**16 - 1, 1 << source.randrange(15)])
        return sets

    def map_ask(self, name):
        """An ask: at times of no direction or of one twice."""
        if self.model.ends[name].mapping.asked and self.source.random() < 0.4:
            name = PEER[name]
        ways = self.source.choice([["down"], ["up"], ["both"], ["both"], ["down", "up"], ["up", "down"]])
        if self.source.random() < 0.1:
            ways = self.source.choice([[], ["down", "down"], ["both", "up"], ["down", "both"], ["both", "both"]])
        changes = [{"default": True} if self.source.random() < 0.2 else {"map": self.sets()} for _ in ways]
        return by(name, "map_ask", entries=[{"dir": way, **change} for way, change in zip(ways, changes)])

    def map_teardown(self, name):
        return by(name, "map_teardown")

    def give_up(self, name):
        return by(name, "give_up", what="map")

    def command(self):
        source, model = self.source, self.model
        kind = source.choices(list(self.kinds), list(self.kinds.values()))[0]
        name = "sta" if (source.random() < self.ap_share) == (kind in self.HEARD) else "ap"
        end, peer = model.ends[name], model.ends[PEER[name]]
        if self.associates and not model.ends["sta"].links and source.random() < 0.16:
            asked = model.ends["sta"].setup.asked
            return self.inject("sta") if asked and source.random() < 0.5 else self.associate("sta")
        if self.associates and not model.ends["ap"].links and source.random() < 0.05:
            return self.inject("ap")
        if peer.key > end.newest and source.random() < 0.12:
            return by(name, "install")
        if (end.reserve is not None or end.booking) and source.random() < 0.4:
            kind = "put" if end.booking else "book"
        if kind == "bar_in" and not peer.requests and source.random() < 0.9:
            kind = "deliver"
        return getattr(self, kind)(name)

    def filling(self):
        """A loop that fills windows: some bodies are sent in each round, and fewer arrive."""
        source = self.source
        name = "ap" if source.random() < self.ap_share else "sta"
        lane, body = source.choice(self.lanes) if source.random() < 0.9 else "m", []
        for _ in range(source.randint(1, 3)):
            link = self.link(self.model.ends[name], lane)
            made = by(name, "map_teardown") if lane == "m" else queue(lane, source.randbytes(4).hex(), name)
            body += [made, send(link, lane, name)]
            if source.random() < 0.6:
                body.append(deliver(source.choice([None, None, 3]), link, PEER[name]))
        if source.random() < 0.5:
            body += [by(PEER[name], "ack_out", lane=lane), by(name, "ack_in")]
        return loop(source.choice([2, 5, 5, 20, 90]), *body)

    def exchange(self):
        """An ask and its reply, of which some steps are left out."""
        asker = self.source.choice(list(PEER))
        commands = [self.map_ask(asker)]
        for name in (asker, PEER[asker]):
            link = self.link(self.model.ends[name], "m")
            commands += [send(link, "m", name), deliver(None, link, PEER[name])]
            commands += [by(PEER[name], "ack_out", lane="m"), by(name, "ack_in")]
        return [command for command in commands if self.source.random() < 0.9]

    def joining(self):
        """An ask, at times a further one for other links, and the reply to the first; some steps are left out."""
        ask = self.associate("sta")
        link, links = ask["link"], self.model.links
        asks = [ask]
        if self.source.random() < 0.4:
            other = sorted({link, *self.source.sample(links, self.source.randint(0, len(links)))})
            asks.append(associate(link, *other))
        commands = [*asks, deliver(len(self.model.ends["sta"].air[link]), link, "ap"), deliver(None, link)]
        return [command for command in commands if self.source.random() < 0.9]

    def some(self):
        """What comes next: mostly one command. Where the ends have other links, they ask for mappings more often."""
        kind, differ = self.source.random(), len({end.links for end in self.model.ends.values()}) > 1
        if self.associates and not self.model.ends["sta"].links and self.source.random() < 0.08:
            return self.joining()
        if kind < 0.02:
            return [self.filling()]
        if kind < 0.05:
            return [loop(self.source.randint(1, 6), *(self.command() for _ in range(self.source.randint(0, 4))))]
        return self.exchange() if kind < (0.2 if differ else 0.1) else [self.command()]

    def write(self):
        """The whole scenario. A forged frame ends it, with some commands that aren't reached."""
        try:
            for _ in range(self.source.randint(0, 150)):
                for command in self.some():
                    self.scenario["before"].append(command)
                    self.model.run([command])
        except Forged:
            self.scenario["before"] += [self.command() for _ in range(3)]
        return self.scenario


def long_scenarios():
    """Past the 4,096 sequence numbers, body by body, and with losses; ack requests as far ahead as they
    may be, and one further; and more keys than are held."""
    rounds = [queue(), send(), deliver(), *ACKED]
    stale = [by("ap", "ack_in", nth=nth) for nth in (0, 102, 103, 104, 105, 4198)]
    yield scenario_of([loop(4200, *rounds), deliver(0), deliver(104), *stale], window=1)
    source = random.Random(4096)
    commands, lost, frames = [], [], [0, 0]
    for pos in range(4400):
        link = pos % 2
        commands += [queue(3, f"{pos:04x}", "sta"), send(link, 3, "sta")]
        if source.random() < 0.1:
            lost.append((pos, link, frames[link]))
        else:
            commands.append(deliver(None, link, "ap"))
        frames[link] += 1
        if pos % 40 == 39:
            commands += [by("ap", "ack_out", lane=3), by("sta", "ack_in")]
            for gap, link, nth in lost:
                other = 1 - link
                again = [by("sta", "again", link=other, lane=3, pos=gap), deliver(None, other, "ap")]
                given_up = [by("sta", "bar_out", lane=3, to=gap + 1), by("ap", "bar_in")]
                retried = source.random() < 0.5
                commands += [*(again if retried else given_up), deliver(nth, link, "ap")]
                frames[other] += retried
            lost = []
            commands += [by("ap", "ack_out", lane=3), by("sta", "ack_in")]
    yield scenario_of(commands, links=2)
    blocks = [[loop(256, queue(), send()), by("ap", "bar_out", lane=0, to=256 * k)] for k in range(1, 8)]
    last = [loop(256, queue(), send()), *(by("ap", "bar_out", lane=0, to=to) for to in (2047, 2048))]
    requests = [by("sta", "bar_in"), by("sta", "bar_in", nth=7), by("sta", "bar_in"), deliver(2046), deliver(2047)]
    yield scenario_of([*sum(blocks, []), *last, *requests, by("sta", "bar_in")], window=256)
    commands = []
    for name in ("ap", "sta"):
        for turns in range(6):
            commands += [queue(turns, "00", name), send(turns % 3, turns, name), by(name, "turn")]
        for _ in range(7):
            commands += [deliver(nth, link, PEER[name]) for link in range(3) for nth in range(2)]
            commands.append(by(PEER[name], "install"))
    yield scenario_of(commands, links=3)
