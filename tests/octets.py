"""The octets of frames and of the bodies in them: made from the layouts in docs/FORMATS.md, and read with the
decoder of lines.py. They share no code with the program."""

import hashlib

from lines import MAPPING, MULTI_LINK, Fields, elements_of, is_basic, number, profiles, show_frame

PEER = {"ap": "sta", "sta": "ap"}
DATA, ACTION, ASK, REPLY = 0x88, 0xD0, 0x00, 0x10  # a frame's first octet
RETRY, POWER, MORE, PROTECTED = 0x08, 0x10, 0x20, 0x40  # flags in the second
DIRECTIONS = ("down", "up", "both")  # of a mapping element, by number


def low(value, width):
    """A number in so many octets, the lowest first."""
    return value.to_bytes(width, "little")


# Frames.


class Frame:
    """The fields of a frame that was read. Octets that aren't one are refused."""

    def __init__(self, octets):
        show_frame(octets)
        self.octets, self.kind, self.flags = octets, octets[0], octets[1]
        self.receiver, self.sender = octets[4:10], octets[10:16]
        self.number = number(octets[22:24]) >> 4
        self.is_protected = self.kind in (DATA, ACTION)
        self.lane = octets[24] & 15 if self.kind == DATA else "m"
        end = 26 if self.kind == DATA else 24
        if self.is_protected:
            ccmp = octets[end : end + 8]
            self.key_id, self.pn = ccmp[3] >> 6, number(ccmp[:2] + ccmp[4:])
            end += 8
        self.payload = octets[end:]


def renumbered(octets, sequence):
    """The frame with another sequence number."""
    return octets[:22] + low(sequence << 4, 2) + octets[24:]


class Way:
    """The way from one end to the other: how frames on it are addressed and sealed."""

    def __init__(self, scenario, sender):
        self.sender, self.receiver = sender, PEER[sender]
        self.base = bytes.fromhex(scenario["key"])
        self.mld = {end: bytes.fromhex(scenario[end]) for end in PEER}
        self.links = {link["id"]: {end: bytes.fromhex(link[end]) for end in PEER} for link in scenario["links"]}
        self.direction = 2 if sender == "ap" else 1  # the flags FromDS and ToDS of data

    def header(self, link, kind, sequence=0, retry=False):
        """Frame control up to sequence control. The third address is the AP's, for data that of the MLD."""
        flags = (PROTECTED if kind in (DATA, ACTION) else 0) | (self.direction if kind == DATA else 0)
        addresses = self.links[link]
        third = self.mld["ap"] if kind == DATA else addresses["ap"]
        control = bytes([kind, flags | (RETRY if retry else 0), 0, 0])
        return control + addresses[self.receiver] + addresses[self.sender] + third + low(sequence << 4, 2)

    def additional(self, header, lane):
        """What is sealed with the body: the header without what a retry may change, between the MLDs."""
        second = header[1] & ~(RETRY | POWER | MORE) | PROTECTED
        control = bytes([header[0], second]) if lane == "m" else bytes([header[0] & 0x8F, second & 0x7F])
        addresses = self.mld[self.receiver] + self.mld[self.sender] + self.mld["ap"]
        return control + addresses + bytes([header[22] & 15, 0]) + (b"" if lane == "m" else bytes([lane, 0]))

    def sealed(self, key, pn, lane, header, body):
        """The text of a body: behind it stands the tag of the stand-in."""
        nonce = bytes([0x10 if lane == "m" else lane]) + self.mld[self.sender] + pn.to_bytes(6, "big")
        additional = self.additional(header, lane)
        length = len(additional).to_bytes(2, "big")
        tagged = self.base + key.to_bytes(2, "big") + nonce + length + additional + body
        return body + hashlib.sha256(tagged).digest()[:8]

    def frame(self, link, lane, key, pn, sequence, body, retry=False):
        """A protected frame on this way."""
        header = self.header(link, ACTION if lane == "m" else DATA, sequence, retry)
        control = b"" if lane == "m" else bytes([lane, 0])
        packet = low(pn, 6)
        ccmp = packet[:2] + bytes([0, 0x20 | key % 2 << 6]) + packet[2:]
        return header + control + ccmp + self.sealed(key, pn, lane, header, body)

    def opened(self, frame, key):
        """The body of a frame under this key. None where its payload is the text of no body."""
        body = frame.payload[:-8]
        text = self.sealed(key, frame.pn, frame.lane, frame.octets[:24], body)
        return body if text == frame.payload else None

    def strange(self, link, frame):
        """The place of the first address or direction that isn't this way's on the link."""
        if frame.receiver != self.links[link][self.receiver]:
            return 4
        if frame.sender != self.links[link][self.sender]:
            return 10
        return 1 if frame.kind == DATA and frame.flags & 3 != self.direction else None


def element(identity, body):
    """An element with an extension and a body of at most 254 octets."""
    return bytes([identity[0], 1 + len(body), identity[1]]) + body


# Bodies of the management lane. What is asked for is a list of directions with eight sets, or the default.


def mapping_element(entry):
    direction, sets = DIRECTIONS.index(entry["dir"]), entry.get("map")
    if sets is None:
        return element(MAPPING, bytes([direction | 4]))
    present = sum(1 << tid for tid, links in enumerate(sets) if links is not None)
    named = b"".join(low(links, 2) for links in sets if links is not None)
    return element(MAPPING, bytes([direction, present]) + named)


def map_ask(token, entries):
    in_order = sorted(entries, key=lambda entry: DIRECTIONS.index(entry["dir"]))
    return bytes([37, 0, token]) + b"".join(mapping_element(entry) for entry in in_order)


def map_reply(token, status):
    return bytes([37, 1, token]) + low(status, 2)


def map_teardown():
    return bytes([37, 2])


def read_mapping(body):
    fields = Fields(body)
    control = fields.number(1)
    direction = {"dir": DIRECTIONS[control & 3]}
    if control & 4:
        return {**direction, "default": True}
    present = fields.number(1)
    return {**direction, "map": [fields.number(2) if present >> tid & 1 else None for tid in range(8)]}


def read_action(body):
    """A body that an end made: what it is, its token, and what it asks for or the status that it tells."""
    fields = Fields(body)
    _category, action = fields.number(1), fields.number(1)
    if action == 2:
        return "map_teardown", None, None
    token = fields.number(1)
    if action == 1:
        return "map_reply", token, fields.number(2)
    return "map_ask", token, [read_mapping(octets) for _, octets in elements_of(fields.rest())]


# Association bodies.


def profile(link, address, body, complete=True):
    """What is asked or told of a link apart from the one that carries the frame. An address may be left out."""
    info = b"" if address is None else address
    control = link | (0x10 if complete else 0) | (0x20 if info else 0)
    octets = low(control, 2) + bytes([1 + len(info)]) + info + body
    return bytes([0, len(octets)]) + octets


def ask_profile(link, address):
    return profile(link, address, low(0, 2))


def reply_profile(link, address, status):
    return profile(link, address, low(0, 2) + low(status, 2))


def association_ask(mld, others, elements=b""):
    """A request of the device of this address, with the profiles of the other links."""
    return low(0, 4) + elements + element(MULTI_LINK, bytes([0, 0, 7]) + mld + b"".join(others))


def association_reply(mld, link, status, others):
    """A response with the status of the link that carries it, and the profiles of the other links."""
    common = bytes([0x10, 0, 8]) + mld + bytes([link])
    return low(0, 2) + low(status, 2) + low(0xC001, 2) + element(MULTI_LINK, common + b"".join(others))


def read_ask(body):
    """The MLD address of a request, and the address in each profile, by link. What can't be read is refused."""
    fields = Fields(body)
    fields.take(4)
    elements = elements_of(fields.rest(), fields.at)
    _, found = profiles(elements, 2)
    basic = next(octets for identity, octets in elements if is_basic(identity, octets))
    return basic[3:9], {values["link"]: values["mac"] for values, _, _ in found}


def read_reply(body):
    """The status in a response, and that in each profile, by link. What can't be read is refused."""
    fields = Fields(body)
    _capability, status, _aid = (fields.number(2) for _ in range(3))
    _, found = profiles(elements_of(fields.rest(), fields.at), 4)
    return status, {values["link"]: number(octets[2:4]) for values, octets, _ in found}
