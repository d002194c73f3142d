"""A model of two ends that send to each other: what each command of a scenario is answered, and the
report at the end. It is written from the rules in docs/BEHAVIOUR.md and docs/FORMATS.md, and shares no
code with the program."""

import json

from lines import Refused
from machines import ApSetup, Mapping, StationSetup, changes_of, has, set_of
from octets import ASK, PEER, REPLY, Frame, Way, map_ask, map_reply, map_teardown, renumbered
from octets import ask_profile, association_ask, association_reply, read_action, read_ask, read_reply, reply_profile

NUMBERS = 4096  # sequence numbers are counted modulo this
AHEAD = 2048  # a number this far ahead of the window's start counts as behind it
LAST_PN = 2**48 - 1
LAST_KEY = 65535
LANES = (*range(8), "m")
MANAGEMENT = {"send": 16, "receive": 1}  # the sizes of the windows of lane "m"


class Forged(Exception):
    """A frame opens that its sender never booked."""


class Booking:
    """A position of a lane with its key, its packet number and its body."""

    def __init__(self, lane, pos, key, pn, body):
        self.lane, self.pos, self.key, self.pn, self.body = lane, pos, key, pn, body
        self.aired, self.done = False, False


class Sending:
    """What an end sends on a lane."""

    def __init__(self, size):
        self.size = size
        self.queue, self.granted = [], 0
        self.bookings = []  # by position
        self.base = 0  # the least position that isn't done

    def finish(self, positions):
        """Makes booked positions done, and tells how many weren't."""
        newly = [pos for pos in positions if not self.bookings[pos].done]
        for pos in newly:
            self.bookings[pos].done = True
        while self.base < len(self.bookings) and self.bookings[self.base].done:
            self.base += 1
        return len(newly)

    def acknowledge(self, start, stored):
        """Takes an acknowledgement. None where it starts past what was booked."""
        top = max(self.base, len(self.bookings))
        ahead = (start - self.base) % NUMBERS
        if ahead > top - self.base:
            return None
        further = [self.base + (number - self.base) % NUMBERS for number in stored]
        below = range(self.base, self.base + ahead)
        return self.finish([*below, *(pos for pos in further if pos < top and pos not in below)])


class Receiving:
    """What an end receives on a lane: a window over full numbers, and what went up from it."""

    def __init__(self, size):
        self.start, self.size = 0, size
        self.stored = {}  # the booking of each number that is occupied
        self.last_pair = (-1, 0)  # key and packet number of the last body released
        self.released = []

    def full(self, number):
        """The least number not below the start that has these lowest twelve bits."""
        return self.start + (number - self.start) % NUMBERS

    def release(self, numbers):
        """Takes these numbers out, and tells the bookings released: those above the last pair."""
        up = []
        for booking in [self.stored.pop(number) for number in numbers]:
            if (booking.key, booking.pn) > self.last_pair:
                self.last_pair = (booking.key, booking.pn)
                up.append(booking)
        self.released += [booking.pos for booking in up]
        return up

    def move(self, start):
        """Moves the start; what is stored below it goes up in order."""
        self.start = start
        return self.release(sorted(number for number in self.stored if number < start))

    def pass_run(self):
        """Sends up what stands without a gap from the start on, and moves the start past it."""
        end = self.start
        while end in self.stored:
            end += 1
        numbers = range(self.start, end)
        self.start = end
        return self.release(numbers)

    def arrive(self, number, booking):
        """The answer to a frame with this number, and the bookings released."""
        full = self.full(number)
        if full >= self.start + AHEAD:
            return "oldnumber", []
        if full in self.stored:
            return "double", []
        up = self.move(full - self.size + 1) if full >= self.start + self.size else []
        self.stored[full] = booking
        return "stored", up + self.pass_run()

    def request(self, number):
        """Moves the window as an ack request asks for. None where that lies behind it."""
        full = self.full(number)
        if not 0 < full - self.start < AHEAD:
            return None
        return self.move(full) + self.pass_run()


class End:
    """One device: nine lanes a direction, a hand, its keys, its radios, and all that it put on the air."""

    def __init__(self, name, scenario, first, newest):
        links, window = [link["id"] for link in scenario["links"]], scenario.get("window", 64)
        self.sending = {lane: Sending(MANAGEMENT["send"] if lane == "m" else window) for lane in LANES}
        self.receiving = {lane: Receiving(MANAGEMENT["receive"] if lane == "m" else window) for lane in LANES}
        self.reserve, self.booking = None, None  # the hand: a lane, or a booking, or neither
        self.key, self.next_pn, self.newest = *first, newest
        self.bookings = {}  # by key and packet number
        self.air = {link: [] for link in links}  # the octets of each frame, and its booking, if it has one
        self.acks, self.requests = [], []
        self.own_way = "down" if name == "ap" else "up"
        self.radios = set_of(links)
        set_up = links if scenario.get("associated", True) else []
        self.mapping = Mapping(name in scenario.get("deny", []), set_of(set_up))
        addresses = {link["id"]: bytes.fromhex(link["sta"]) for link in scenario["links"]}
        accepts = set_of(scenario.get("accept", links))
        self.setup = ApSetup(accepts, addresses) if name == "ap" else StationSetup()
        self.token = 0  # the last one counted

    @property
    def links(self):
        """The links set up."""
        return self.mapping.links

    def held(self, key_id):
        """The held key with this ID, which is the lowest bit of the key's number."""
        keys = [key for key in (self.newest, self.newest - 1) if key >= 0 and key % 2 == key_id]
        return keys[0] if keys else None

    def why_kept(self, link, lane):
        """Why this lane's frames may not go over the link now. None where they may."""
        if not has(self.links, link):
            return "notsetup"
        if not has(self.radios, link):
            return "unpowered"
        if lane == "m":
            mapped = self.mapping.sets("down") + self.mapping.sets("up")
        else:
            mapped = [self.mapping.sets(self.own_way)[lane]]
        return None if any(has(links, link) for links in mapped) else "unmapped"

    def count_token(self):
        self.token = self.token % 255 + 1
        return self.token

    def make(self, body):
        """Puts a body that a machine makes into the management queue."""
        self.sending["m"].queue.append(body)

    def act(self, bookings):
        """Does what the peer's management bodies that were released ask for."""
        for booking in bookings:
            what, token, told = read_action(booking.body)
            if what == "map_ask":
                self.make(map_reply(token, self.mapping.answer(changes_of(told))))
            elif what == "map_reply":
                self.mapping.take_reply(token, told)
            else:
                self.mapping.reset()


class Model:
    """Two ends and the journal of what they do. Where they don't associate, association frames are ignored, as the
    program does so far."""

    def __init__(self, scenario, associates):
        self.associates = associates
        self.links = [link["id"] for link in scenario["links"]]
        first = {entry["end"]: (entry["key"], entry["pn"]) for entry in scenario.get("first", [])}
        first = {name: first.get(name, (0, 1)) for name in PEER}
        newest = max(key for key, _ in first.values())
        self.ends = {name: End(name, scenario, first[name], newest) for name in PEER}
        self.ways = {name: Way(scenario, name) for name in PEER}  # from the end to its peer
        self.lines = []

    def run(self, commands):
        """Does all commands, up to a forged frame."""
        for command in commands:
            if command["do"] == "loop":
                for _ in range(command["times"]):
                    self.run(command["body"])
            else:
                name = command["end"]
                members = {key: value for key, value in command.items() if key not in ("do", "end")}
                getattr(self, command["do"])(name, self.ends[name], **members)

    def tell(self, do, name, out, **members):
        self.lines.append({"t": 0, "do": do, "end": name, "out": out, **members})
        return out

    def queue(self, name, end, tid, body):
        octets = bytes.fromhex(body)
        end.sending[tid].queue.append(octets)
        pos = len(end.sending[tid].queue) - 1
        self.tell("queue", name, "queued", tid=tid, size=len(octets), pos=pos)

    def reserve(self, name, end, lane):
        sending = end.sending[lane]
        if end.reserve is not None or end.booking is not None:
            out = "handfull"
        elif sending.granted == len(sending.queue):
            out = "nothingqueued"
        elif sending.granted - sending.base >= sending.size:
            out = "windowfull"
        else:
            out = "reserved"
            sending.granted += 1
            end.reserve = lane
        return self.tell("reserve", name, out, lane=lane)

    def book(self, name, end):
        lane, end.reserve = end.reserve, None
        if lane is None:
            return self.tell("book", name, "noreserve")
        sending = end.sending[lane]
        if end.next_pn > LAST_PN:
            sending.granted -= 1
            return self.tell("book", name, "spent", lane=lane)
        key, pn, pos = end.key, end.next_pn, len(sending.bookings)
        end.booking = Booking(lane, pos, key, pn, sending.queue[pos])
        end.next_pn += 1
        sending.bookings.append(end.booking)
        end.bookings[key, pn] = end.booking
        return self.tell("book", name, "booked", lane=lane, pos=pos, key=key, pn=pn)

    def put(self, name, end, link):
        booking, end.booking = end.booking, None
        if booking is None or booking.done:
            return self.tell("put", name, "nothing", link=link)
        out, answer = self.air(name, end, booking, link)
        return self.tell("put", name, out, link=link, lane=booking.lane, pos=booking.pos, **answer)

    def air(self, name, end, booking, link):
        """Puts the frame of a booking on a link, if it may go there. It has the retry mark where it isn't the first."""
        why = end.why_kept(link, booking.lane)
        if why is not None:
            return "kept", {"why": why}
        retry, booking.aired = booking.aired, True
        numbers = booking.key, booking.pn, booking.pos % NUMBERS
        end.air[link].append((self.ways[name].frame(link, booking.lane, *numbers, booking.body, retry), booking))
        return "put", {"key": booking.key, "pn": booking.pn, "retry": retry}

    def send(self, name, end, link, lane):
        if self.reserve(name, end, lane) == "reserved" and self.book(name, end) == "booked":
            self.put(name, end, link)

    def again(self, name, end, link, lane, pos):
        members = {"link": link, "lane": lane, "pos": pos}
        bookings = end.sending[lane].bookings
        if pos >= len(bookings) or bookings[pos].done:
            return self.tell("again", name, "nothing", **members)
        out, answer = self.air(name, end, bookings[pos], link)
        return self.tell("again", name, out, **members, **answer)

    def hear(self, name, link, octets):
        """The answer to octets that an end hears on a link, and its members."""
        end, way = self.ends[name], self.ways[PEER[name]]
        try:
            frame = Frame(octets)
        except Refused as refused:
            return "badframe", {"why": refused.why, "place": refused.place}
        if not has(end.radios, link) or frame.is_protected and not has(end.links, link):
            return "linkdown", {}
        place = way.strange(link, frame)
        if place is not None:
            return "badframe", {"why": "WrongAddress", "place": place}
        return self.open(name, frame) if frame.is_protected else self.set_up(name, link, frame)

    def set_up(self, name, link, frame):
        """The answer to an association frame: the status of its link, where the end makes use of it."""
        if not self.associates:
            return "ignored", {}
        use, kind = (self.answer_ask, ASK) if name == "ap" else (self.take_reply, REPLY)
        try:
            status = use(self.ends[name], link, frame) if frame.kind == kind else None
        except Refused:
            status = None
        return ("ignored", {}) if status is None else ("setup", {"status": status})

    def answer_ask(self, ap, link, frame):
        """The AP airs its reply to a request, and sets up the links that it grants."""
        mld, others = read_ask(frame.payload)
        way = self.ways["ap"]
        if mld != way.mld["sta"] or link in others or None in others.values():
            return None
        statuses = ap.setup.answer((link, {link: frame.sender, **others}), ap.links, ap.radios)
        if not ap.links and statuses[link] == 0:
            ap.mapping.links = set_of(granted for granted, status in statuses.items() if status == 0)
        addresses = {other: ends["ap"] for other, ends in way.links.items()}
        told = [reply_profile(other, addresses.get(other), statuses[other]) for other in sorted(others)]
        body = association_reply(way.mld["ap"], link, statuses[link], told)
        ap.air[link].append((way.header(link, REPLY) + body, None))
        return statuses[link]

    def take_reply(self, station, link, frame):
        """The station takes a reply on the link of its last ask."""
        status, others = read_reply(frame.payload)
        if station.setup.asked is None or station.setup.asked[0] != link or link in others:
            return None
        station.mapping.links = station.setup.granted({link: status, **others})
        return status

    def open(self, name, frame):
        """The answer to a frame of the peer that is protected, and its members."""
        end, peer = self.ends[name], self.ends[PEER[name]]
        key = end.held(frame.key_id)
        if key is None:
            return "nokey", {}
        body = self.ways[PEER[name]].opened(frame, key)
        if body is None:
            return "notopened", {}
        booking = peer.bookings.get((key, frame.pn))
        if booking is None or (booking.lane, booking.body) != (frame.lane, body):
            raise Forged
        receiving = end.receiving[frame.lane]
        if (key, frame.pn) <= receiving.last_pair:
            return "replay", {}
        out, up = receiving.arrive(frame.number, booking)
        if out != "stored":
            return out, {}
        return out, {"lane": frame.lane, "number": frame.number, "up": self.gone_up(end, frame.lane, up)}

    def gone_up(self, end, lane, bookings):
        """The positions of what went up. Management bodies act at once."""
        if lane == "m":
            end.act(bookings)
        return [booking.pos for booking in bookings]

    def find(self, entries, nth):
        """The entry of this number, or the latest. None where there is none."""
        index = len(entries) - 1 if nth is None else nth
        return entries[index] if 0 <= index < len(entries) else None

    def deliver(self, name, _end, link, nth=None, number=None):
        """Hears a frame that the peer put on the link; where a number is given, in the place of its own."""
        do, members = "deliver", {"link": link, "nth": nth}
        if number is not None:
            do, members = "alter", {**members, "number": number}
        aired = self.find(self.ends[PEER[name]].air[link], nth)
        if aired is None:
            return self.tell(do, name, "notthere", **members)
        out, answer = self.hear(name, link, aired[0] if number is None else renumbered(aired[0], number))
        return self.tell(do, name, out, **{**members, **answer})

    # The sequence number isn't sealed, so a frame whose number was altered opens to the same body.
    alter = deliver

    def forge(self, name, _end, link, lane, key, pn, number, body):
        octets = self.ways[PEER[name]].frame(link, lane, key, pn, number, bytes.fromhex(body))
        out, answer = self.hear(name, link, octets)
        return self.tell("forge", name, out, link=link, **answer)

    def inject(self, name, _end, link, hex):
        octets = bytes.fromhex(hex)
        out, answer = self.hear(name, link, octets)
        return self.tell("inject", name, out, link=link, size=len(octets), **answer)

    def ack_out(self, name, end, lane):
        receiving = end.receiving[lane]
        start = receiving.start % NUMBERS
        stored = [number % NUMBERS for number in sorted(receiving.stored)]
        end.acks.append((lane, start, stored))
        self.tell("ack_out", name, "acked", lane=lane, start=start, stored=stored)

    def ack_in(self, name, end, nth=None):
        ack = self.find(self.ends[PEER[name]].acks, nth)
        if ack is None:
            return self.tell("ack_in", name, "notthere", nth=nth)
        lane, start, stored = ack
        count = end.sending[lane].acknowledge(start, stored)
        if count is None:
            return self.tell("ack_in", name, "oldack", nth=nth)
        return self.tell("ack_in", name, "done", nth=nth, count=count)

    def bar_out(self, name, end, lane, to):
        sending = end.sending[lane]
        members = {"lane": lane, "to": to}
        if to > len(sending.bookings):
            return self.tell("bar_out", name, "notbooked", **members)
        if to <= sending.base:
            return self.tell("bar_out", name, "behind", **members)
        sending.finish(range(sending.base, to))
        start = sending.base % NUMBERS
        end.requests.append((lane, start))
        return self.tell("bar_out", name, "barred", start=start, **members)

    def bar_in(self, name, end, nth=None):
        request = self.find(self.ends[PEER[name]].requests, nth)
        if request is None:
            return self.tell("bar_in", name, "notthere", nth=nth)
        lane, start = request
        up = end.receiving[lane].request(start)
        if up is None:
            return self.tell("bar_in", name, "oldbar", nth=nth)
        return self.tell("bar_in", name, "moved", nth=nth, up=self.gone_up(end, lane, up))

    def install(self, name, end):
        if end.newest == LAST_KEY:
            return self.tell("install", name, "keysspent")
        end.newest += 1
        return self.tell("install", name, "installed", key=end.newest)

    def turn(self, name, end):
        if end.key == LAST_KEY:
            return self.tell("turn", name, "keysspent")
        end.key, end.next_pn = end.key + 1, 1
        return self.tell("turn", name, "turned", key=end.key)

    def power(self, name, end, link, on):
        end.radios = end.radios | 1 << link if on else end.radios & ~(1 << link)
        return self.tell("power", name, "set", link=link, on=on)

    def associate(self, name, end, link, links, elements=""):
        members, way = {"link": link, "links": links}, self.ways[name]
        if end.links:
            return self.tell("associate", name, "joined", **members)
        if link not in links or not set(links) <= set(self.links):
            return self.tell("associate", name, "notvalid", **members)
        if not has(end.radios, link):
            return self.tell("associate", name, "unpowered", **members)
        end.setup.asked = link, links
        others = [ask_profile(other, way.links[other][name]) for other in links if other != link]
        body = association_ask(way.mld[name], others, bytes.fromhex(elements))
        end.air[link].append((way.header(link, ASK) + body, None))
        return self.tell("associate", name, "asked", **members)

    def map_ask(self, name, end, entries):
        changes = changes_of(entries)
        if end.mapping.asked:
            return self.tell("map_ask", name, "busy", token=end.mapping.asked[0])
        if not end.mapping.allows(changes):
            return self.tell("map_ask", name, "notvalid")
        token = end.count_token()
        end.mapping.asked = token, changes
        end.make(map_ask(token, entries))
        return self.tell("map_ask", name, "asked", token=token)

    def map_teardown(self, name, end):
        if not end.links:
            return self.tell("map_teardown", name, "notvalid")
        end.mapping.reset()
        end.mapping.give_up()
        end.make(map_teardown())
        return self.tell("map_teardown", name, "sent")

    def give_up(self, name, end, what):
        token = end.mapping.give_up()
        if token is None:
            return self.tell("give_up", name, "nothing", what=what)
        return self.tell("give_up", name, "given", what=what, token=token)

    def report_of(self, end):
        queued = {str(lane): len(s.queue) for lane, s in end.sending.items() if s.queue}
        released = {str(lane): runs(r.released) for lane, r in end.receiving.items() if r.released}
        return {
            "aired": sum(len(frames) for frames in end.air.values()),
            "booked": len(end.bookings),
            "emlsr": 0,
            "key": end.key,
            "links": [link for link in self.links if has(end.links, link)],
            "map": {"dl": end.mapping.sets("down"), "ul": end.mapping.sets("up")},
            "newest": end.newest,
            "queued": queued,
            "released": released,
        }

    def report(self):
        ends = {name: self.report_of(end) for name, end in self.ends.items()}
        return {**ends, "steps": len(self.lines), "version": 1}


def runs(positions):
    """Ascending positions as maximal runs of a first and a last one."""
    found = []
    for pos in positions:
        if found and found[-1][1] + 1 == pos:
            found[-1][1] = pos
        else:
            found.append([pos, pos])
    return found


def played(scenario, associates=False):
    """The model after the scenario's commands, and the status that the run ends with."""
    model = Model(scenario, associates)
    try:
        model.run(scenario["before"])
    except Forged:
        return model, 5
    return model, 0


def text(model):
    """What is written: a line a step, and the report."""
    lines = [*model.lines, model.report()]
    return "".join(json.dumps(line, sort_keys=True, separators=(",", ":")) + "\n" for line in lines)


def told(model, status):
    """What is written to standard error."""
    if status == 0:
        return ""
    steps = len(model.lines)
    return f"mld: status 5 place {steps}\nafter {steps} steps a frame opened that its sender never booked\n"
