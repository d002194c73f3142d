"""The machines by which two ends agree, as the model has them. They are written from the rules in
docs/BEHAVIOUR.md, and share no code with the program."""

FAILED, DECLINED, INVALID, DENIED = 1, 37, 38, 133
WAYS = {"down": ["down"], "up": ["up"], "both": ["down", "up"]}


def has(links, link):
    """Whether a set of links has this one."""
    return links >> link & 1 == 1


def set_of(links):
    return sum(1 << link for link in links)


def changes_of(entries):
    """What each direction that is named is to become: eight sets, None where a TID isn't named, or None for the
    default. No direction has a change where one is named twice."""
    ways = [way for entry in entries for way in WAYS[entry["dir"]]]
    if len(set(ways)) < len(ways):
        return {}
    return {way: entry.get("map") for entry in entries for way in WAYS[entry["dir"]]}


class ApSetup:
    """Which links the AP sets up, and the ask that it became associated by."""

    def __init__(self, accepts, addresses):
        self.accepts, self.addresses = accepts, addresses  # a set of links; the station's address on each
        self.joined = None  # the carrying link and the asked links with their addresses, and the statuses

    def status(self, link, address, radios):
        if self.addresses.get(link) != address:
            return INVALID
        return 0 if has(self.accepts & radios, link) else DECLINED

    def answer(self, ask, links, radios):
        """The status of each asked link, while these links are set up and these radios on."""
        carrying, asked = ask
        if links:
            known = self.joined and self.joined[0] == ask
            return self.joined[1] if known else dict.fromkeys(asked, FAILED)
        statuses = {link: self.status(link, address, radios) for link, address in asked.items()}
        if statuses[carrying]:
            return {link: status or FAILED for link, status in statuses.items()}
        self.joined = ask, statuses
        return statuses


class StationSetup:
    """The last ask of the station that it took no reply to."""

    def __init__(self):
        self.asked = None  # the carrying link, and the links asked for

    def granted(self, statuses):
        """The asked links that the reply to the ask sets up. The ask is closed."""
        carrying, links = self.asked
        self.asked = None
        return set_of(link for link in links if statuses[carrying] == 0 and statuses.get(link) == 0)


class Mapping:
    """Which links each TID uses in each direction, as far as this end has agreed, and the end's own ask."""

    def __init__(self, denies, links):
        self.denies, self.links = denies, links
        self.agreed = {"down": None, "up": None}  # eight sets, or None for the default
        self.asked = None  # the token of the ask that stands, and its changes

    def sets(self, way):
        """The links of each TID: by default all that are set up."""
        return self.agreed[way] or [self.links] * 8

    def changed(self, way, change):
        """The links of each TID after a change."""
        if change is None:
            return [self.links] * 8
        return [old if new is None else new for old, new in zip(self.sets(way), change)]

    def allows(self, changes):
        """Whether something changes, and each TID has a link then, and only links that are set up."""
        after = [links for way, change in changes.items() for links in self.changed(way, change)]
        return bool(after) and all(links and links & ~self.links == 0 for links in after)

    def adopt(self, changes):
        for way, change in changes.items():
            sets = [links & self.links for links in self.changed(way, change)]
            self.agreed[way] = sets if change is not None and all(sets) else None

    def answer(self, changes):
        """The status that an ask of the peer gets. Where it is 0 the changes are adopted."""
        if self.asked or self.denies or not self.allows(changes):
            return DENIED
        self.adopt(changes)
        return 0

    def take_reply(self, token, status):
        """Closes the own ask of this token, and adopts what it asked for where the status is 0."""
        if self.asked and self.asked[0] == token:
            changes = self.asked[1]
            self.asked = None
            if status == 0:
                self.adopt(changes)

    def reset(self):
        self.agreed = {"down": None, "up": None}

    def give_up(self):
        """Forgets the own ask, and tells its token. None where none stands."""
        token = self.asked[0] if self.asked else None
        self.asked = None
        return token
