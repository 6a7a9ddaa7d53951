"""Who is on the line: the devices by their addresses, and what is known of each."""
from collections import Counter

from .shape import ADDRESS

MOST_STATIONS = 256
MASTERS = ("primary", "secondary")
# The fewest bytes that an identity of revision 5 or 6 has.
OLD_IDENTITY_BYTES = 12
# The commands whose replies say what a device is or has.
FACTS = {0, 6, 7, 11, 12, 13, 15, 16, 17, 18, 19, 20, 21, 22, 38}
IDENTITIES = (0, 11, 21)


class Station:
    """What is known of an address: who spoke to it, and what its device said of itself."""

    def __init__(self, address):
        self.address = address
        self.requests, self.replies, self.answered = Counter(), Counter(), Counter()
        self.cold_starts, self.states, self.faults = Counter(), Counter(), Counter()
        self.last_status = None
        self.facts = {}
        self.polling = None
        self.unanswered = 0

    @property
    def restarts(self):
        """The least number of restarts of the device. After a restart it reports one cold start to each master that asks."""
        return max(self.cold_starts.values(), default=0)

    def absorb(self, other):
        """Takes over the counts and facts of a polling address that has turned out to be this device's."""
        for name in ("requests", "replies", "answered", "cold_starts", "states", "faults"):
            getattr(self, name).update(getattr(other, name))
        self.unanswered += other.unanswered
        self.last_status = self.last_status or other.last_status
        self.facts = {**other.facts, **self.facts}


def old_identity(data):
    """Returns the fields of an identity before revision 7, or None if the data are none."""
    if not 2 * OLD_IDENTITY_BYTES <= len(data) < 2 * 22 or data[:2] != "FE":
        return None
    numbers = bytes.fromhex(data)
    return {"expanded_device_type": data[2:6], "protocol_revision": numbers[4], "device_revision": numbers[5],
            "software_revision": numbers[6], "device_id": data[18:24], "manufacturer": numbers[1]}


def identity_of(one):
    """Returns the fields of an identity that a reply carries, or None."""
    if one["command"] not in IDENTITIES or one["response_code"] != 0:
        return None
    return one["fields"] if one["fields"].keys() >= {"device_id", "expanded_device_type"} else old_identity(one["data"])


def unique_address(identity):
    """Returns the unique address of an identity in ten digits."""
    return f'{int(identity["expanded_device_type"], 16) & 0x3FFF:04X}{identity["device_id"]}'


class Stations:
    """All stations by address, at most MOST_STATIONS of them, and which device has which polling address."""

    def __init__(self):
        self.by_address = {}
        self.owners = {}
        self.shared = {}
        self.unlisted = 0
        self.others = Station("others")

    def station(self, address):
        """Returns the station of an address. Without room for another one it is the station of all others."""
        address = self.owners.get(address, address)
        station = self.by_address.get(address)
        if station is None:
            if len(self.by_address) >= MOST_STATIONS:
                return self.others
            if not ADDRESS.fullmatch(address):
                raise ValueError("address")
            station = self.by_address[address] = Station(address)
        return station

    def hear_request(self, one):
        """Counts a request, and returns its station."""
        station = self.station(one["address"])
        station.requests[one["master"]] += 1
        self.unlisted += station is self.others
        return station

    def hear_reply(self, one, pending):
        """Counts a reply, keeps what it says of its device, and returns the device's station."""
        identity = identity_of(one)
        station = self.identified(one["address"], identity) if identity else self.station(one["address"])
        master = one["master"]
        station.replies[master] += 1
        self.unlisted += station is self.others
        if one["answers"] is not None:
            station.answered[master] += 1
            if pending and pending.station is not station:
                pending.station.answered[master] += pending.station.address == "all"
        faults = one["communication_faults"]
        if faults is not None:
            station.faults.update(faults or ["a fault without a name"])
            return station
        status = one["device_status"]
        station.last_status = status
        for state in status:
            station.states[state] += 1
            if state == "cold start":
                station.cold_starts[master] += 1
        if one["response_code"] == 0 and one["command"] in FACTS and station is not self.others:
            self.learn(station, one["fields"])
        return station

    def learn(self, station, fields):
        """Keeps what the fields of a reply say. A polling address becomes the device's."""
        station.facts.update(fields)
        if "polling_address" in fields:
            self.own(f'@{fields["polling_address"]}', station)

    def identified(self, address, identity):
        """Returns the station of an identity that was heard at an address."""
        unique = unique_address(identity)
        station = self.station(unique)
        station.facts.update(identity)
        if address.startswith("@"):
            self.own(address, station)
        return station

    def own(self, polling, station):
        """Notes which device has a polling address, and gives it what was counted there before."""
        owner = self.owners.get(polling)
        if owner == station.address or station is self.others:
            return
        if owner is not None and self.by_address[owner].polling == polling:
            self.shared.setdefault(polling, {owner}).add(station.address)
        if self.owners.get(station.polling) == station.address:
            del self.owners[station.polling]
        self.owners[polling] = station.address
        station.polling = polling
        before = self.by_address.pop(polling, None)
        if before is not None and before is not station:
            station.absorb(before)

    def of_no_pair(self):
        """Returns, by address, how many messages there were between it and a master, if no request of this master to it was answered."""
        counts = Counter()
        for station in [*self.by_address.values(), self.others]:
            for master in MASTERS:
                if not station.answered[master]:
                    counts[station.address] += station.requests[master] + station.replies[master]
        return +counts
