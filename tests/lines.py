#!/usr/bin/env python3
"""Shows random hex lines by the program and by a small decoder of its own, and compares the two. The
decoder is written from the tables of docs/FORMATS.md and shares no code with the program.

Usage: tests/lines.py [--lines N] [--seed N]
"""

import argparse
import os
import random
import subprocess
import sys

ROOT = os.path.dirname(os.path.dirname(os.path.abspath(__file__)))
PROGRAM = os.path.join(ROOT, "crates", "mld", "out", "mld")

MULTI_LINK, MAPPING, NON_INHERITANCE = (255, 107), (255, 109), (255, 56)


class Refused(Exception):
    def __init__(self, why, place, element=None, sub=None, inner=None):
        super().__init__(why)
        self.why, self.place = why, place
        self.element, self.sub, self.inner = element, sub, inner

    def text(self):
        parts = ["refused"]
        for name in ("element", "sub", "inner"):
            if getattr(self, name) is not None:
                parts.append(f"{name}={getattr(self, name)}")
        return " ".join(parts + [f"place={self.place}", self.why])


def number(octets):
    return int.from_bytes(octets, "little")


def cut(octets, fragment, extended, truncated):
    """The items of a list, each its ID and the octets of its pieces joined."""
    items, at, full = [], 0, False
    while at < len(octets):
        if len(octets) - at < 2:
            raise Refused(truncated, at)
        identity, length = octets[at], octets[at + 1]
        if identity == fragment and not full:
            raise Refused("StrayFragment", at)
        if identity == fragment and length == 0:
            raise Refused("EmptyFragment", at)
        if extended and identity == 255 and length == 0:
            raise Refused("NoExtension", at)
        if len(octets) - at - 2 < length:
            raise Refused(truncated, at)
        body = octets[at + 2 : at + 2 + length]
        if identity == fragment:
            items[-1][1].extend(body)
        else:
            items.append((identity, bytearray(body)))
        full = length == 255
        at += 2 + length
    return [(identity, bytes(body)) for identity, body in items]


def elements_of(octets, front=0):
    """The elements, each its identity and its body; places count `front` octets further in front."""
    try:
        items = cut(octets, 242, True, "Truncated")
    except Refused as refused:
        refused.place += front
        raise
    return [((i, b[0]), b[1:]) if i == 255 else ((i, None), b) for i, b in items]


class Fields:
    """Fields read one after the other; the first that isn't whole is refused at its place."""

    def __init__(self, octets, front=0, why="Truncated"):
        self.octets, self.at, self.front, self.why = octets, 0, front, why

    def take(self, width):
        if len(self.octets) - self.at < width:
            raise Refused(self.why, self.front + self.at)
        self.at += width
        return self.octets[self.at - width : self.at]

    def number(self, width):
        return number(self.take(width))

    def rest(self):
        return self.octets[self.at :]


def shown(value):
    if value is None:
        return "-"
    if isinstance(value, bool):
        return str(int(value))
    return value.hex() if isinstance(value, bytes) else str(value)


def call(name, *first, **fields):
    parts = list(first) + [f"{key}={shown(value)}" for key, value in fields.items()]
    return f"{name}({','.join(parts)})"


def mapping(body):
    fields = Fields(body)
    control = fields.number(1)
    if control & 3 == 3:
        raise Refused("ReservedDirection", 0)
    default, narrow = control >> 2 & 1, control >> 5 & 1
    present = 0 if default else fields.number(1)
    switch = fields.number(2) if control & 8 else None
    duration = fields.number(3) if control & 16 else None
    maps = [f"{t}:{fields.number(1 if narrow else 2)}" for t in range(8) if present >> t & 1]
    return call(
        "ttlm", dir=control & 3, default=default, spare=control >> 6, narrow=narrow,
        switch=switch, duration=duration, map="+".join(maps) or None, tail=fields.rest(),
    )  # fmt: skip


def info(octets, at, slots, short, long):
    """An Info field behind its length: its fields by name, its tail, and the place of its end."""
    need = 1 + sum(width for _, there, width in slots if there)
    if len(octets) <= at or octets[at] < need:
        raise Refused(short, at)
    end = at + octets[at]
    if len(octets) < end:
        raise Refused(long, at)
    values, at = {}, at + 1
    for name, there, width in slots:
        octet_field = width == 6
        value = octets[at : at + width] if there else None
        values[name] = value if octet_field or value is None else number(value)
        at += width if there else 0
    return values, octets[at:end], end


def info_control(octets):
    if len(octets) < 3:
        raise Refused("InfoShort", 0)
    control = number(octets[:2])
    if control & 15 == 15:
        raise Refused("ReservedLink", 0)
    return control


def profile(octets):
    control = info_control(octets)
    flags = {name: bool(control & bit) for name, bit in (("complete", 0x10), ("pair", 0x200), ("wide", 0x400))}
    slots = [
        ("mac", control & 0x20, 6),
        ("beacon", control & 0x40, 2),
        ("tsf", control & 0x80, 8),
        ("dtim", control & 0x100, 2),
        ("nstr", flags["complete"] and flags["pair"], 2 if flags["wide"] else 1),
        ("count", control & 0x800, 1),
    ]
    values, tail, end = info(octets, 2, slots, "InfoShort", "InfoLong")
    return {"link": control & 15, **flags, "spare": control >> 12, **values, "tail": tail, "body": octets[end:]}, end


def change(octets):
    control = info_control(octets)
    values, tail, end = info(octets, 2, [("mac", control & 0x20, 6), ("timer", control & 0x40, 2)], "InfoShort", "InfoLong")
    return {
        "link": control & 15, "complete": bool(control & 0x10), "op": control >> 7 & 15,
        "params": bool(control & 0x800), "spare": control >> 12, **values, "tail": tail, "body": octets[end:],
    }, end  # fmt: skip


def subelements(octets, at, read):
    """The subelements behind Common Info: each its ID, and of a profile its fields and its body's place."""
    try:
        items = cut(octets[at:], 254, False, "SubTruncated")
    except Refused as refused:
        refused.place += at
        raise
    subs = []
    for i, (identity, body) in enumerate(items):
        try:
            subs.append((identity, body, read(body) if identity == 0 else None))
        except Refused as refused:
            refused.sub = i
            raise
    return subs


def subs_text(name, subs):
    return "[" + ";".join(call(name, **read[0]) if read else f"s{i}:{body.hex()}" for i, body, read in subs) + "]"


def multi_link(body):
    """The element's text, and of a Basic one its subelements."""
    if len(body) < 2:
        raise Refused("ControlShort", 0)
    control = number(body[:2])
    if control & 7 == 0:
        slots = [("mld", True, 6), ("link", control & 0x10, 1), ("count", control & 0x20, 1)]
        slots += [("sync", control & 0x40, 2), ("eml", control & 0x80, 2), ("caps", control & 0x100, 2)]
        slots += [("apid", control & 0x200, 1), ("ext", control & 0x400, 2)]
        values, tail, end = info(body, 2, slots, "CommonShort", "CommonLong")
        if values["link"] is not None and values["link"] & 15 == 15:
            raise Refused("ReservedLink", 9)
        subs = subelements(body, end, profile)
        text = call("ml", "basic", spare=control & 0xF808, **values, tail=tail, subs=subs_text("sta", subs))
        return text, subs
    if control & 7 == 2:
        slots = [("mld", control & 0x10, 6), ("eml", control & 0x20, 2), ("caps", control & 0x40, 2), ("ext", control & 0x80, 2)]
        values, tail, end = info(body, 2, slots, "CommonShort", "CommonLong")
        subs = subelements(body, end, change)
        return call("ml", "reconf", spare=control & 0xFF08, **values, tail=tail, subs=subs_text("chg", subs)), None
    return call("ml", "other", control=control, body=body[2:]), None


def raw(identity, body):
    name = f"e{identity[0]}" if identity[1] is None else f"e{identity[0]}.{identity[1]}"
    return f"{name}:{body.hex()}"


def inside(i, read, body):
    """What is read of an element, a refusal with its index."""
    try:
        return read(body)
    except Refused as refused:
        refused.element = i
        raise


def items(elements, decoded):
    """The texts of elements, those of the identities in `decoded` as their values."""
    readers = {MAPPING: mapping, MULTI_LINK: lambda body: multi_link(body)[0]}
    return [inside(i, readers[e], b) if e in decoded else raw(e, b) for i, (e, b) in enumerate(elements)]


def show_elements(octets):
    return items(elements_of(octets), {MAPPING, MULTI_LINK})


# ---- frames

FRAMES = {0x88: "qos", 0xD0: "action", 0x00: "assoc-ask", 0x10: "assoc-reply"}


def refuse_frame(octets, kind, flags):
    """The first test of a frame's header that fails."""
    data = kind == "qos"
    to_ds, from_ds = flags & 1, flags >> 1 & 1
    tests = [
        (octets[0] & 3, "Version", 0),
        (kind is None, "TypeLeftOut", 0),
        (data and to_ds and from_ds, "FourAddress", 1),
        (data and not to_ds and not from_ds, "NoDs", 1),
        (not data and (to_ds or from_ds), "DsInManagement", 1),
        (flags & 4, "Fragmented", 1),
        (kind in ("qos", "action") and not flags & 0x40, "NotProtected", 1),
        (kind not in ("qos", "action") and flags & 0x40, "ProtectedSetup", 1),
        (flags & 0x80, "Order", 1),
        (octets[22] & 15, "Fragmented", 22),
        (data and len(octets) < 26, "Short", 24),
    ]
    for fails, why, place in tests:
        if fails:
            raise Refused(why, place)


def show_frame(octets):
    if len(octets) < 24:
        raise Refused("Short", 0)
    kind, flags = FRAMES.get(octets[0]), octets[1]
    refuse_frame(octets, kind, flags)
    end, to, tid, rest = 24, None, None, None
    if kind == "qos":
        word, end = number(octets[24:26]), 26
        if word & 15 >= 8:
            raise Refused("TidLeftOut", 24)
        if word & 0x80:
            raise Refused("Amsdu", 24)
        to, tid, rest = "ap" if flags & 1 else "sta", word & 15, word & 0xFF70
    key, pn, spare, bits, payload = None, None, None, None, octets[end:]
    if kind in ("qos", "action"):
        ccmp = octets[end : end + 8]
        if len(ccmp) < 8:
            raise Refused("Short", end)
        if not ccmp[3] & 0x20:
            raise Refused("NoExtIv", end + 3)
        key, pn, spare, bits = ccmp[3] >> 6, number(ccmp[:2] + ccmp[4:]), ccmp[2], ccmp[3] & 31
        payload = octets[end + 8 :]
    return [
        call(
            "frame", kind, to=to, tid=tid, rest=rest, retry=flags >> 3 & 1, power=flags >> 4 & 1,
            more=flags >> 5 & 1, duration=number(octets[2:4]), a1=octets[4:10], a2=octets[10:16],
            a3=octets[16:22], number=number(octets[22:24]) >> 4, key=key, pn=pn, spare=spare,
            bits=bits, payload=payload,
        )
    ]  # fmt: skip


# ---- association bodies


def non_inheritance(body):
    fields = Fields(body)
    lists = []
    for _ in range(2):
        place = fields.at
        length = fields.number(1)
        if len(body) - fields.at < length:
            raise Refused("Truncated", place)
        lists.append(fields.take(length))
    return lists


NEVER = {MULTI_LINK, MAPPING, NON_INHERITANCE, (242, None)}


def expand(outer, own):
    """The profile's elements with those that it inherits."""
    left_out = set(NEVER)
    for i, (identity, body) in enumerate(own):
        left_out.add(identity)
        if identity == NON_INHERITANCE:
            try:
                ids, extensions = non_inheritance(body)
            except Refused as refused:
                refused.inner = i
                raise
            left_out |= {(x, None) for x in ids} | {(255, x) for x in extensions}
    inherited = [(e, b) for e, b in outer if e not in left_out]
    return inherited + [(e, b) for e, b in own if e != NON_INHERITANCE]


def is_basic(identity, body):
    return identity == MULTI_LINK and len(body) >= 2 and body[0] & 7 == 0


def profiles(elements, fixed):
    """The Basic element's text, and of each profile its fields, its fixed octets and its elements."""
    places = [i for i, (e, b) in enumerate(elements) if is_basic(e, b)]
    if len(places) != 1:
        raise Refused("NoMultiLink", 0)
    at, seen, found = places[0], set(), []
    try:
        text, subs = multi_link(elements[at][1])
        for j, (_identity, _octets, read) in enumerate(subs):
            if read is None:
                continue
            try:
                values, place = read
                if values["link"] in seen:
                    raise Refused("RepeatedLink", 0)
                seen.add(values["link"])
                body = values["body"]
                if len(body) < fixed:
                    raise Refused("ProfileShort", place)
                own = elements_of(body[fixed:], place + fixed)
                found.append((values, body, expand(elements, own) if values["complete"] else own))
            except Refused as refused:
                refused.sub = j
                raise
    except Refused as refused:
        refused.element = at
        raise
    return text, found


def body_items(elements, text):
    return [text if is_basic(e, b) else raw(e, b) for e, b in elements]


def show_ask(octets):
    fields = Fields(octets)
    head = call("assoc-ask", capability=fields.number(2), listen=fields.number(2))
    elements = elements_of(fields.rest(), 4)
    text, found = profiles(elements, 2)
    out = [head, *body_items(elements, text)]
    for values, body, own in found:
        out += ["/", f"link={values['link']}", f"mac={shown(values['mac'])}", f"capability={number(body[:2])}"]
        out += [raw(e, b) for e, b in own]
    return out


def show_reply(octets):
    fields = Fields(octets)
    head = call("assoc-reply", capability=fields.number(2), status=fields.number(2), aid=fields.number(2))
    elements = elements_of(fields.rest(), 6)
    text, found = profiles(elements, 4)
    out = [head, *body_items(elements, text)]
    for values, body, _own in found:
        out += ["/", f"link={values['link']}", f"capability={number(body[:2])}", f"status={number(body[2:4])}"]
    return out


# ---- action bodies


def counted(elements, identity, least, most, why, place):
    if not least <= sum(e == identity for e, _ in elements) <= most:
        raise Refused(why, place)


def show_map(fields, name, names, least):
    head = call(name, **{key: fields.number(width) for key, width in names})
    elements = elements_of(fields.rest(), fields.at)
    counted(elements, MAPPING, least, 2, "NoMapping", fields.at)
    return [head, *items(elements, {MAPPING})]


def show_eml(fields):
    token, control = fields.number(1), fields.number(1)
    if control & 2:
        raise Refused("EmlmrLeftOut", 3)
    links = fields.number(2) if control & 1 else None
    update = fields.number(1) if control & 4 else None
    return [call("eml", token=token, control=control, links=links, update=update, rest=fields.rest())]


def show_reconf_ask(fields):
    head = call("reconf-ask", token=fields.number(1))
    elements = elements_of(fields.rest(), fields.at)
    found = [b for e, b in elements if e == MULTI_LINK]
    if len(found) != 1 or len(found[0]) < 2 or found[0][0] & 7 != 2:
        raise Refused("NoMultiLink", fields.at)
    return [head, *items(elements, {MULTI_LINK})]


def show_reconf_reply(fields):
    token, count = fields.number(1), fields.number(1)
    links = [f"{fields.number(1)}:{fields.number(2)}" for _ in range(count)]
    return [call("reconf-reply", token=token, list="+".join(links) or None, rest=fields.rest())]


def show_block_ack(fields, name, names):
    head = call(name, **{key: fields.number(width) for key, width in names})
    return [head, *items(elements_of(fields.rest(), fields.at), set())]


def show_action(octets):
    fields = Fields(octets)
    category = fields.number(1)
    if category not in (3, 37):
        raise Refused("UnknownCategory", 0)
    action = fields.number(1)
    token = ("token", 1)
    if category == 3 and action == 0:
        return show_block_ack(fields, "addba-ask", [token, ("params", 2), ("timeout", 2), ("start", 2)])
    if category == 3 and action == 1:
        return show_block_ack(fields, "addba-reply", [token, ("status", 2), ("params", 2), ("timeout", 2)])
    if category == 3 and action == 2:
        return [call("delba", params=fields.number(2), reason=fields.number(2), rest=fields.rest())]
    if category == 37 and action == 0:
        return show_map(fields, "map-ask", [token], 1)
    if category == 37 and action == 1:
        return show_map(fields, "map-reply", [token, ("status", 2)], 0)
    if category == 37 and action == 2:
        return [call("map-teardown", rest=fields.rest())]
    if category == 37 and action in (3, 4, 5):
        return [call("epcs", action=action, rest=fields.rest())]
    if category == 37 and action == 6:
        return show_eml(fields)
    if category == 37 and action == 11:
        return show_reconf_ask(fields)
    if category == 37 and action == 12:
        return show_reconf_reply(fields)
    raise Refused("UnknownAction", 1)


KINDS = {
    "elements": show_elements,
    "action": show_action,
    "assoc-ask": show_ask,
    "assoc-reply": show_reply,
    "frame": show_frame,
}


def answer(line):
    """What is shown for a line, and how many octets it has."""
    kind, digits = line.split(" ", 1) if " " in line else ("elements", line)
    octets = bytes.fromhex(digits)
    try:
        return " ".join(["ok", *KINDS[kind](octets)]), len(octets)
    except Refused as refused:
        return refused.text(), len(octets)


def show_line(line):
    return answer(line)[0]


def judge_line(line):
    text, octets = answer(line)
    return text if text.startswith("refused") else f"ok {octets}"


# ---- random lines


class Maker:
    """Makes octets that are mostly right, with faults strewn in."""

    def __init__(self, source):
        self.source = source

    def octets(self, most):
        return self.source.randbytes(self.source.randint(0, most))

    def chance(self, part):
        return self.source.random() < part

    def pieces(self, identity, body, fragment):
        parts = [body[i : i + 255] for i in range(0, len(body), 255)] or [b""]
        out = bytes([identity, len(parts[0])]) + parts[0]
        for part in parts[1:]:
            out += bytes([fragment, len(part)]) + part
        if self.chance(0.01):
            out += bytes([fragment, self.source.randint(0, 3)]) + b"\0\0"
        return out

    def info(self, slots):
        fields = b"".join(self.source.randbytes(width) for there, width in slots if there)
        tail = self.octets(3) if self.chance(0.2) else b""
        length = 1 + len(fields) + len(tail)
        if self.chance(0.03):
            length = max(0, length + self.source.randint(-4, 4))
        return bytes([min(length, 255)]) + fields + tail

    def profile(self, body=None, link=None, control=None):
        word = self.source.randrange(0x10000) if control is None else control
        word = word & 0xFFF0 | (self.source.randint(0, 14 if self.chance(0.98) else 15) if link is None else link)
        slots = [(word & 0x20, 6), (word & 0x40, 2), (word & 0x80, 8), (word & 0x100, 2)]
        slots += [(word & 0x10 and word & 0x200, 2 if word & 0x400 else 1), (word & 0x800, 1)]
        out = word.to_bytes(2, "little") + self.info(slots)
        return out + ((self.octets(600) if self.chance(0.1) else self.octets(12)) if body is None else body)

    def change(self):
        word = self.source.randrange(0x10000)
        if word & 15 == 15 and self.chance(0.9):
            word -= 1
        return word.to_bytes(2, "little") + self.info([(word & 0x20, 6), (word & 0x40, 2)]) + self.octets(8)

    def sub_list(self, make):
        out = b""
        for _ in range(self.source.randint(0, 3)):
            if self.chance(0.8):
                out += self.pieces(0, make(), 254)
            else:
                out += self.pieces(self.source.choice([1, 221, 242, 255]), self.octets(300), 254)
        return out

    def basic(self, subs=None):
        word = self.source.randrange(0x10000) & 0xFFF8
        slots = [(True, 6), (word & 0x10, 1), (word & 0x20, 1), (word & 0x40, 2), (word & 0x80, 2)]
        slots += [(word & 0x100, 2), (word & 0x200, 1), (word & 0x400, 2)]
        common = bytearray(self.info(slots))
        if word & 0x10 and len(common) > 7 and common[7] & 15 == 15 and self.chance(0.9):
            common[7] -= 1
        return word.to_bytes(2, "little") + bytes(common) + (self.sub_list(self.profile) if subs is None else subs)

    def reconf(self):
        word = self.source.randrange(0x10000) & 0xFFF8 | 2
        slots = [(word & 0x10, 6), (word & 0x20, 2), (word & 0x40, 2), (word & 0x80, 2)]
        return word.to_bytes(2, "little") + self.info(slots) + self.sub_list(self.change)

    def mapping(self):
        control = self.source.randrange(256)
        if control & 3 == 3 and self.chance(0.9):
            control -= 1
        out = bytes([control])
        present = self.source.randrange(256)
        if not control & 4:
            out += bytes([present])
        out += self.source.randbytes((2 if control & 8 else 0) + (3 if control & 16 else 0))
        if not control & 4:
            out += self.source.randbytes(bin(present).count("1") * (1 if control & 32 else 2))
        return out + (self.octets(3) if self.chance(0.2) else b"")

    def multi_link(self):
        pick = self.source.random()
        if pick < 0.6:
            return self.basic()
        if pick < 0.9:
            return self.reconf()
        return self.octets(6)

    def element(self):
        pick = self.source.random()
        if pick < 0.35:
            return self.pieces(255, b"\x6b" + self.multi_link(), 242)
        if pick < 0.55:
            return self.pieces(255, b"\x6d" + self.mapping(), 242)
        if pick < 0.6:
            return self.pieces(255, b"\x38" + self.octets(5), 242)
        return self.pieces(self.source.choice([0, 1, 45, 221, 254]), self.octets(10), 242)

    def elements(self):
        return b"".join(self.element() for _ in range(self.source.randint(0, 4)))

    def spoiled(self, octets):
        """Mostly the same octets, now and then cut or with one changed."""
        if octets and self.chance(0.1):
            return octets[: self.source.randrange(len(octets))]
        if octets and self.chance(0.1):
            at = self.source.randrange(len(octets))
            return octets[:at] + self.source.randbytes(1) + octets[at + 1 :]
        return octets

    def frame(self):
        first = self.source.choice([0x88, 0x88, 0xD0, 0x00, 0x10])
        flags = self.source.choice([1, 2]) if first == 0x88 else 0
        flags |= (0x40 if first in (0x88, 0xD0) else 0) | self.source.randrange(8) << 3
        if self.chance(0.2):
            flags ^= 1 << self.source.randrange(8)
        if self.chance(0.05):
            first ^= 1 << self.source.randrange(8)
        out = bytes([first, flags]) + self.source.randbytes(20)
        out += (self.source.randrange(4096) << 4 | (self.source.randrange(16) if self.chance(0.05) else 0)).to_bytes(2, "little")
        if first == 0x88:
            out += (self.source.randrange(0x10000) & (0xFFFF if self.chance(0.2) else 0xFF77)).to_bytes(2, "little")
        if first in (0x88, 0xD0):
            ccmp = bytearray(self.source.randbytes(8))
            ccmp[3] |= 0 if self.chance(0.1) else 0x20
            out += bytes(ccmp)
        return out + self.octets(6)

    def plain_element(self):
        """One of the elements that profiles inherit, or not."""
        pick = self.source.random()
        if pick < 0.2:
            lists = [bytes(self.source.choice([0, 1, 45, 221, 255]) for _ in range(self.source.randint(0, 2))) for _ in range(2)]
            body = b"".join(bytes([len(part) + (3 if self.chance(0.05) else 0)]) + part for part in lists)
            return self.pieces(255, b"\x38" + body, 242)
        if pick < 0.4:
            return self.pieces(255, bytes([self.source.choice([1, 45, 109])]) + self.octets(3), 242)
        return self.pieces(self.source.choice([0, 1, 45, 221]), self.octets(3), 242)

    def association(self, fixed):
        """An association body behind its own fields, with so many fixed octets in a profile."""
        plain = [self.plain_element() for _ in range(self.source.randint(0, 4))]
        subs = b""
        links = self.source.sample(range(15), self.source.randint(0, 3))
        if links and self.chance(0.05):
            links.append(links[0])
        for link in links:
            own = b"".join(self.plain_element() for _ in range(self.source.randint(0, 3)))
            body = self.spoiled(self.source.randbytes(fixed) + own)
            word = self.source.choice([0x00, 0x10, 0x20, 0x30, 0x30]) | self.source.randrange(16) << 12
            subs += self.pieces(0, self.profile(body, link, word), 254)
        basics = self.source.choice([1] * 12 + [0, 2])
        plain += [self.pieces(255, b"\x6b" + self.basic(subs), 242) for _ in range(basics)]
        if self.chance(0.1):
            plain.append(self.pieces(255, b"\x6b" + self.octets(3), 242))
        self.source.shuffle(plain)
        return b"".join(plain)

    def action(self):
        code = self.source.choice([(37, a) for a in (0, 0, 1, 1, 2, 3, 5, 6, 6, 11, 11, 12, 12, 7)] + [(3, a) for a in (0, 1, 2, 3)] + [(4, 0)])
        out = bytes(code)
        mappings = lambda: b"".join(  # noqa: E731
            self.pieces(255, b"\x6d" + self.mapping(), 242) if self.chance(0.7) else self.plain_element()
            for _ in range(self.source.randint(0, 3))
        )
        if code == (37, 0):
            return out + self.source.randbytes(1) + mappings()
        if code == (37, 1):
            return out + self.source.randbytes(3) + mappings()
        if code == (37, 6):
            control = self.source.randrange(256) & (0xFF if self.chance(0.1) else 0xFD)
            return out + self.source.randbytes(1) + bytes([control]) + self.octets(6)
        if code == (37, 11):
            body = self.reconf() if self.chance(0.9) else self.octets(3)
            return out + self.source.randbytes(1) + self.pieces(255, b"\x6b" + body, 242) + (self.element() if self.chance(0.3) else b"")
        if code == (37, 12):
            count = self.source.randint(0, 3)
            return out + self.source.randbytes(1) + bytes([count]) + self.source.randbytes(3 * count) + self.octets(2)
        if code in ((3, 0), (3, 1)):
            return out + self.source.randbytes(7) + self.elements()
        return out + self.octets(5)

    def line(self):
        pick = self.source.random()
        if pick < 0.35:
            return self.spoiled(self.elements()).hex()
        if pick < 0.5:
            return f"frame {self.spoiled(self.frame()).hex()}"
        if pick < 0.65:
            return f"action {self.spoiled(self.action()).hex()}"
        name, head, fixed = self.source.choice([("assoc-ask", 4, 2), ("assoc-reply", 6, 4)])
        return f"{name} {self.spoiled(self.source.randbytes(head) + self.association(fixed)).hex()}"


def compare(command, lines, of_line):
    """Runs a command over the lines, and compares each line of it with the decoder's."""
    text = "".join(line + "\n" for line in lines)
    ran = subprocess.run([PROGRAM, command], input=text, capture_output=True, text=True, check=False)
    ours = ran.stdout.split("\n")
    if ours[-1] or len(ours) != len(lines) + 1:
        sys.exit(f"lines: {command} shows {len(ours) - 1} lines of {len(lines)}")
    wanted = [of_line(line) for line in lines]
    for line, got, want in zip(lines, ours, wanted, strict=False):
        if got != want:
            sys.exit(f"lines: {command} at {line}\nthe program shows {got}\nthe decoder shows {want}")
    return ran, wanted


def main():
    parser = argparse.ArgumentParser(description=__doc__.splitlines()[0])
    parser.add_argument("--lines", type=int, default=20000)
    parser.add_argument("--seed", type=int, default=1)
    arguments = parser.parse_args()
    # The launcher builds the program where that is needed.
    subprocess.run([os.path.join(ROOT, "mld"), "decode"], stdin=subprocess.DEVNULL, check=True)
    maker = Maker(random.Random(arguments.seed))
    lines = [maker.line() for _ in range(arguments.lines)]
    ran, wanted = compare("decode", lines, show_line)
    if ran.returncode != 0 or ran.stderr:
        sys.exit(f"lines: decode ended with {ran.returncode} and {ran.stderr!r}")
    ran, verdicts = compare("check", lines, judge_line)
    first = next((i for i, verdict in enumerate(verdicts, 1) if verdict.startswith("refused")), None)
    status, told = (7, f"mld: status 7 place {first}\nline {first} is the first that is refused\n") if first else (0, "")
    if ran.returncode != status or ran.stderr != told:
        sys.exit(f"lines: check ended with {ran.returncode} and {ran.stderr!r}, not {status} and {told!r}")
    names = {}
    for want in wanted:
        name = want.rsplit(" ", 1)[1] if want.startswith("refused") else "ok"
        names[name] = names.get(name, 0) + 1
    print(f"lines: {len(lines)} agree ({', '.join(f'{k} {v}' for k, v in sorted(names.items()))})")


if __name__ == "__main__":
    main()
