"""The rows that both sides read: cEMI messages, routing and tunnelling datagrams made from a fixed
seed, a good one with each octet at each of its values, and the sources' examples of tests/telegrams/."""

import pathlib
import runpy
from collections import namedtuple

ROOT = pathlib.Path(__file__).resolve().parent.parent.parent
SEED = 0x4B6C756D64726179
# So many are made of each form; of the same octets, one row is kept.
EACH = 4500

# `origin` says how the row came about; `octets` are the datagram, or the message.
Row = namedtuple("Row", "form octets origin")

HEADER, CONNECTION = 6, 4
FORMS = ("cemi", "routing", "request", "acknowledgement")
# The service of a datagram, and where its cEMI message begins; an acknowledgement ends there.
SERVICES = {"routing": 0x0530, "request": 0x0420, "acknowledgement": 0x0421}
START = {"cemi": 0, "routing": HEADER, "request": HEADER + CONNECTION, "acknowledgement": HEADER + CONNECTION}
MESSAGE = "29 00 BC C0 00 00 12 34 04 00 80 56 78 9A"
# P7's message, P7, that message in a tunnelling request, and the acknowledgement of that request.
GOOD = {
    "cemi": MESSAGE,
    "routing": f"06 10 05 30 00 14 {MESSAGE}",
    "request": f"06 10 04 20 00 18 04 01 00 00 {MESSAGE}",
    "acknowledgement": "06 10 04 21 00 0A 04 01 00 00",
}
CODES = (0x11, 0x2E, 0x29)
# Kinds of additional information with a length that each may have; FEh is the manufacturer's own.
KINDS = {1: 2, 2: 8, 3: 1, 4: 2, 5: 4, 6: 4, 7: 2, 8: 4, 9: 3, 10: 2, 0xFE: 6}
# Payloads that a plant is full of: a group read, written short and long, a broadcast, a property,
# memory, the transport layer's own.
PAYLOADS = ("00 00", "00 40", "00 81", "00 80 0C 1A", "00 80 56 78 9A", "00 40 07 D0", "00 C0 11 05",
            "01 00", "03 D5 00 0B 10 01", "43 D7 01 01 10 01 00", "46 01 00 60", "43 00", "80", "81",
            "C2", "D6", "47 43 40 09 1A")


class Chance:
    """Numbers from a seed, the same ones on every machine and under every Python."""

    def __init__(self, seed):
        self.state = seed

    def below(self, limit):
        self.state = (self.state * 6364136223846793005 + 1442695040888963407) % 2**64
        return (self.state >> 33) % limit

    def one_of(self, things):
        return things[self.below(len(things))]

    def octets(self, number):
        return bytes(self.below(256) for _ in range(number))


class Message:
    """A cEMI message that document 01 accepts, by its parts, and what is put around it; in an
    acknowledgement only that."""

    def __init__(self, chance, form):
        self.chance = chance
        self.form = form
        self.code = 0x29 if form == "routing" else chance.one_of(CODES)
        self.information = b""
        self.information_length = None
        extended = chance.below(2)
        error = chance.below(2) if self.code == 0x2E else 0
        self.control = (0x10 if extended else 0x90) | chance.below(2) << 5 | chance.below(4) << 2 | error
        self.hops = chance.below(16) << 4
        self.addresses = chance.octets(4)
        self.payload = self.any_payload(255 if extended else 16)
        self.length = len(self.payload) - 1
        self.header = [6, 0x10, *SERVICES.get(form, 0).to_bytes(2, "big")]
        self.connection = [4, *chance.octets(2), 0] if START[form] > HEADER else []
        self.more = 0
        self.total = None
        self.left = None
        self.behind = b""

    def any_payload(self, most):
        if self.chance.below(3):
            return bytes.fromhex(self.chance.one_of(PAYLOADS))
        return self.chance.octets(1 + self.chance.below(self.chance.one_of((4, 16, most))))

    def message(self):
        if self.form == "acknowledgement":
            return b""
        count = len(self.information) if self.information_length is None else self.information_length
        octets = bytes((self.code, count)) + self.information + bytes((self.control, self.hops))
        return octets + self.addresses + bytes((self.length,)) + self.payload

    def octets(self):
        octets = bytes(self.connection) + self.message() + self.behind
        if self.left is not None:
            octets = octets[: self.left % (len(octets) + 1)]
        if self.form != "cemi":
            total = HEADER + len(octets) + self.more if self.total is None else self.total
            octets = bytes(self.header) + (total % 2**16).to_bytes(2, "big") + octets
        return octets


def element(chance):
    kind = chance.one_of(tuple(KINDS))
    return bytes((kind, KINDS[kind])) + chance.octets(KINDS[kind])


def information(message):
    number = 1 + message.chance.below(4)
    message.information = b"".join(element(message.chance) for _ in range(number))


def odd_information(message):
    """Of an unknown kind, of another length than its kind has, empty, or cut off inside."""
    chance = message.chance
    octets = element(chance) if chance.below(2) else b""
    length = chance.below(12)
    odd = (
        bytes((chance.below(256), length)) + chance.octets(length),
        bytes((chance.one_of(tuple(KINDS)), length)) + chance.octets(length),
        bytes((chance.one_of(tuple(KINDS)), 0)),
        element(chance)[: 1 + chance.below(3)],
        bytes((chance.below(256), 1 + chance.below(255))),
        chance.octets(1 + chance.below(254 - len(octets))),
    )
    message.information = (octets + chance.one_of(odd))[:254]


def any_code(message):
    message.code = message.chance.below(256)


def known_code(message):
    """A code that cEMI has, mostly of another message than L_Data."""
    message.code = message.chance.one_of((*CODES, 0x10, 0x13, 0x25, 0x2B, 0x2D, 0x2F, 0xFC, 0xFB, 0xF6, 0xF1, 0xF0))


def escaped_information(message):
    """a = 255, with 255 octets behind it or with fewer."""
    if message.chance.below(2):
        message.information = message.chance.octets(255)
    message.information_length = 255


def other_information_length(message):
    message.information_length = message.chance.below(256)


def extended_format(message):
    message.hops |= 1 + message.chance.below(15)


def escaped_length(message):
    """LG 255, with 255 octets behind the TPCI or with fewer."""
    if message.chance.below(2):
        message.payload = message.chance.octets(256)
    message.length = 255


def long_standard(message):
    number = 16 + message.chance.below(message.chance.one_of((4, 239)))
    message.control |= 0x80
    message.payload = message.payload[:1] + message.chance.octets(number)
    message.length = number


def other_length(message):
    message.length = message.chance.below(message.chance.one_of((16, 256)))


def reserved_bits(message):
    """Bits 6, 4 and 1 of Ctrl1, which are not read."""
    message.control ^= message.chance.one_of((0x40, 0x10, 0x02, 0x42, 0x50, 0x12, 0x52))


def error_mark(message):
    message.control |= 1


def cut_short(message):
    message.left = message.chance.below(2**16)


def last_octet_lost(message):
    message.payload = message.payload[:-1]


def octets_left(message):
    message.behind = message.chance.octets(1 + message.chance.below(message.chance.one_of((2, 20))))


def header_length(message):
    message.header[0] = message.chance.below(message.chance.one_of((16, 256)))


def version(message):
    message.header[1] = message.chance.one_of((0x00, 0x11, 0x20, 0x13, message.chance.below(256)))


def known_service(message):
    """A service that KNXnet/IP has, of its several families."""
    services = ("0201", "0204", "0205", "0310", "0420", "0421", "0531", "0532", "0533", "0740", "0950")
    message.header[2:] = bytes.fromhex(message.chance.one_of(services))


def any_service(message):
    message.header[2 + message.chance.below(2)] = message.chance.below(256)


def total_length(message):
    message.more = message.chance.one_of((-1, 1, -2, 6, -6, 256, message.chance.below(2**16)))


def small_total(message):
    """About the header's own length."""
    message.total = message.chance.below(8)


def first_octet(message):
    message.connection[0] = message.chance.below(message.chance.one_of((8, 256)))


def fourth_octet(message):
    """00h in a request, where it is not read; the status of an acknowledgement."""
    message.connection[3] = message.chance.below(message.chance.one_of((0x30, 256)))


MESSAGE_FAULTS = (
    any_code, known_code, information, information, odd_information, odd_information,
    escaped_information, other_information_length, extended_format, escaped_length, long_standard,
    other_length, reserved_bits, error_mark, cut_short, cut_short, last_octet_lost, octets_left,
)
HEADER_FAULTS = (header_length, version, known_service, any_service, total_length, total_length, small_total)
CONNECTION_FAULTS = (first_octet, fourth_octet)
FAULTS = {
    "cemi": MESSAGE_FAULTS,
    "routing": MESSAGE_FAULTS + HEADER_FAULTS * 2,
    "request": MESSAGE_FAULTS + HEADER_FAULTS * 2 + CONNECTION_FAULTS * 4,
    "acknowledgement": (cut_short, octets_left) + HEADER_FAULTS + CONNECTION_FAULTS * 4,
}


def random_octets(chance, form):
    head = bytes.fromhex(GOOD[form])[:4] if form != "cemi" and chance.below(2) else b""
    return head + chance.octets(chance.below(chance.one_of((8, 32, 300))))


def made_row(chance, form):
    kind = chance.below(16)
    if kind == 0:
        return Row(form, random_octets(chance, form), "random octets")
    message = Message(chance, form)
    listed = FAULTS[form]
    # None, mostly one, sometimes several at once: the order of refusals shows only then.
    number = 0 if kind < 5 else 1 if kind < 12 else 2 + chance.below(2)
    faults = [chance.one_of(listed) for _ in range(number)]
    for fault in faults:
        fault(message)
    return Row(form, message.octets(), " and ".join(fault.__name__ for fault in faults) or "valid")


def made(form):
    chance = Chance(SEED + len(form))
    return [made_row(chance, form) for _ in range(EACH)]


def swept(form):
    """The good one: each octet at each of its values, and cut off at each place."""
    good = bytes.fromhex(GOOD[form])
    for place in range(len(good)):
        yield Row(form, good[:place], f"the good one cut off at {place}")
        for value in range(256):
            octets = good[:place] + bytes((value,)) + good[place + 1 :]
            yield Row(form, octets, f"the good one with {value:02X} at {place}")


def told(form):
    """The sources' examples."""
    listed = runpy.run_path(str(ROOT / "tools" / "make-telegrams"))["rows"]()
    return [Row(form, bytes.fromhex(octets), name) for name, kind, octets, _ in listed if kind == form]


def rows(form):
    listed = {}
    for row in (*told(form), *swept(form), *made(form)):
        listed.setdefault(row.octets, row)
    return list(listed.values())
