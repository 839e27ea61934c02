"""What is compared of a row: each fact with our side and tshark's.

Of every row, the refusal that documents 01 and 02 give to the values that tshark shows. Of an accepted row,
every value, every octet handed out, and whether tshark marks anything. Of a refused row, the place of
the refusal, and whether tshark marks the field there."""

import re
from collections import namedtuple

from rows import CONNECTION, HEADER, SERVICES, START

Fact = namedtuple("Fact", "name ours theirs")

MESSAGES = {"request": 0x11, "confirmation": 0x2E, "indication": 0x29}
# The fields that a refusal is about; a message whose code it does not know is data to tshark.
FAULTY = {
    3: ("cemi.eff",),
    4: ("cemi.len",),
    5: ("cemi.len",),
    7: ("cemi.mc", "cemi.data"),
    8: ("cemi.ai.n",),
    9: ("cemi.len",),
    10: ("knxip.headerlength", "knxip.version"),
    11: ("knxip.service",),
    12: ("knxip.totallength",),
    19: ("knxip.struct.length", "knxip.data"),
}
# What is left behind an acknowledgement.
LEFT = "knxip.data"
# What tshark marks if octets are missing; behind the last one it says what it expected there.
SHORT = ("packet", "cemi", "cemi.ai.n", "cemi.len", "knxip.struct.length", "knxip.folder")
NO_LENGTH = "? Length: expected 1 byte"
MARKED = ("mark in the information", "mark on the sequence number", "mark in the payload",
          "mark on the octet 00h", "mark elsewhere")


def start(row):
    """Where the cEMI message begins."""
    return START[row.form]


def shown_number(row, found):
    """The refusal that documents 01 and 02 give to the values that tshark shows."""
    number = header_number(row, found)
    if number or row.form == "acknowledgement":
        return number or (5 if shown_left(found) else 0)
    codes = (MESSAGES["indication"],) if row.form == "routing" else MESSAGES.values()
    return message_number(row, found, codes)


def header_number(row, found):
    if row.form == "cemi":
        return 0
    tests = (
        (1, not found.packets),
        (10, found.value("knxip.headerlength") != 6 or found.value("knxip.version") != 0x10),
        (11, found.value("knxip.service") != SERVICES[row.form]),
        (12, found.value("knxip.totallength") != len(row.octets)),
    )
    refused = next((number for number, applies in tests if applies), 0)
    return refused if refused or row.form == "routing" else connection_number(found)


def connection_number(found):
    if found.value("knxip.totallength") < HEADER + CONNECTION:
        return 1
    return 0 if shown_first(found) == 0x04 else 19


def shown_first(found):
    """The octet behind the header, be it a length that tshark takes for one or not."""
    shown = (field for field in found.fields if field.name in FAULTY[19] and field.place == HEADER)
    return next((field.octets[0] for field in shown if field.octets), None)


def shown_left(found):
    return next((field for field in found.found(LEFT) if field.place == HEADER + CONNECTION), None)


def message_number(row, found, codes):
    code, a, length = shown_code(row, found), found.value("cemi.ai.n"), found.value("cemi.len")
    tests = (
        (1, code is None),
        (7, code not in codes),
        (1, a is None),
        (8, a == 255),
        (1, length is None),
        (3, found.value("cemi.eff") != 0),
        (4, length == 255),
    )
    refused = next((number for number, applies in tests if applies), 0)
    return refused or length_number(found, length)


def shown_code(row, found):
    """The message code, be it known to tshark or not."""
    shown = (field for field in found.fields if field.name in FAULTY[7] and field.place == start(row))
    return next((field.octets[0] for field in shown if field.octets), None)


def length_number(found, length):
    if found.value("cemi.ft") == 1 and length > 15:
        return 9
    marked = next((mark.words for mark in found.marks if mark.on == "cemi.len"), None)
    if marked is None:
        return 0
    # The words are `Available: 3 bytes`.
    return 1 if int(re.search(r"-?\d+", marked)[0]) < length else 5


def values(ours, payload, information):
    """What the accepted frame is made of: its name, tshark's field and our value."""
    yield "message code", "cemi.mc", MESSAGES[ours["message"]]
    yield "additional information length", "cemi.ai.n", len(information)
    yield "format", "cemi.ft", int(ours["format"] == "standard")
    yield "repeat flag", "cemi.rep", int(ours["first_sending"])
    yield "priority", "cemi.prio", ours["priority"]
    yield "error mark", "cemi.ce", int(ours["error_mark"])
    yield "AT", "cemi.at", int(ours["group"])
    yield "hop count", "cemi.hc", ours["count"]
    yield "EFF", "cemi.eff", 0
    yield "source", "cemi.sa", ours["source_number"]
    yield "destination", "cemi.da", ours["destination_number"]
    yield "LG", "cemi.len", len(payload) - 1


def upper_values(found, payload):
    """What tshark shows of the TPCI and the APCI, as bits of our payload."""
    yield "TPCI packet type", "cemi.tpt", payload[0] >> 7
    yield "TPCI sequence type", "cemi.st", payload[0] >> 6 & 1
    if found.found("cemi.num") or payload[0] & 0x40:
        yield "TPCI sequence number", "cemi.num", payload[0] >> 2 & 15
    if payload[0] & 0x80:
        yield "TPCI control", "cemi.tc", payload[0] & 3
    elif len(payload) > 1:
        # Ten bits; tshark shows the upper four where they are enough to tell the service.
        service = int.from_bytes(payload[:2], "big") & 0x3FF
        yield "APCI", *(("cemi.ac", service >> 6) if found.found("cemi.ac") else ("cemi.ax", service))


def tunnel_values(ours):
    """What both tunnelling services have between header and message."""
    if "channel" in ours:
        yield "channel", "knxip.channel", ours["channel"]
        yield "counter", "knxip.seqctr", ours["counter"]


def worded_facts(ours, found):
    """What tshark says in words, beside what document 01 does."""
    # "in a request, bit 5 at 1 asks for repetitions"; elsewhere it is 1 in a first sending.
    repeats = ours["first_sending"] == (ours["message"] == "request")
    yield Fact("format in words", ours["format"].capitalize(), found.word("cemi.ft"))
    yield Fact("repeat flag in words", "Yes" if repeats else "No", found.word("cemi.rep"))
    yield Fact("AT in words", "Group" if ours["group"] else "Individual", found.word("cemi.at"))
    yield Fact("source in words", ours["source"], found.word("cemi.sa"))
    yield Fact("destination in words", ours["destination"], found.word("cemi.da"))


def octet_facts(found, name, part, begin):
    """The octets that we hand out beside those that tshark shows in their place."""
    shown = {}
    for field in found.fields:
        shown.update(enumerate(field.octets, field.place))
    both = [(octet, shown[place]) for place, octet in enumerate(part, begin) if place in shown]
    ours, theirs = (bytes(octets).hex(" ").upper() for octets in zip(*both)) if both else ("", "")
    yield Fact(f"octets of the {name}", ours, theirs)
    yield Fact(f"octets shown of the {name}", len(part), len(both))


def mark_name(row, parts, mark):
    if mark.on == "knxip.reserved":
        return "mark on the octet 00h"
    begin = start(row) + 2
    end = begin + len(parts.information)
    if begin <= mark.place < end or mark.place == end and mark.on == NO_LENGTH:
        return "mark in the information"
    if mark.on == "cemi.num":
        return "mark on the sequence number"
    return "mark in the payload" if mark.place >= len(row.octets) - len(parts.payload) else "mark elsewhere"


def status_facts(ours, found):
    yield Fact("status", ours["status"], found.value("knxip.status"))
    words = next(field.words for field in found.found("knxip.status"))
    name = re.fullmatch(r"Status: (?:E_)?(.*) \(0x..\)", words)[1]
    name = {"OK": "no error"}.get(name, name.lower().replace("_", " ").replace("tunneling", "tunnelling"))
    if ours["status_words"]:
        yield Fact("status in words", ours["status_words"].lower(), name)


def acknowledged_facts(ours, found):
    for name, field, value in tunnel_values(ours):
        yield Fact(name, value, found.value(field))
    yield from status_facts(ours, found)
    marks = [f"{mark.on}: {mark.words}" for mark in found.marks]
    yield Fact("mark elsewhere", "accepted", "; ".join(marks) or "accepted")


def accepted_facts(row, parts, ours, found):
    payload, information = bytes.fromhex(ours["payload"]), bytes.fromhex(ours["information"])
    listed = (*tunnel_values(ours), *values(ours, payload, information), *upper_values(found, payload))
    for name, field, value in listed:
        yield Fact(name, value, found.value(field))
    yield from worded_facts(ours, found)
    yield from octet_facts(found, "information", information, start(row) + 2)
    yield from octet_facts(found, "payload", payload, len(row.octets) - len(payload))
    for name in MARKED:
        marks = [f"{mark.on}: {mark.words}" for mark in found.marks if mark_name(row, parts, mark) == name]
        yield Fact(name, "accepted", "; ".join(marks) or "accepted")


def marks_fault(row, number, found):
    """Whether tshark marks the field that the refusal is about."""
    places = {7: start(row), 19: HEADER}
    for mark in found.marks:
        if number == 1 and (mark.on in SHORT or mark.place == len(row.octets) and mark.on.startswith("?")):
            return True
        if mark.on in faulty(row, number) and mark.place == places.get(number, mark.place):
            return True
    return False


def faulty(row, number):
    """The fields that a refusal of the row is about."""
    return (LEFT,) if number == 5 and row.form == "acknowledgement" else FAULTY.get(number, ())


def shown_place(row, number, found):
    """Where tshark shows the field that the refusal is about."""
    if number == 1:
        return len(row.octets)
    names = faulty(row, number)
    if number == 10 and found.value("knxip.headerlength") == 6:
        names = ("knxip.version",)
    field = next((field for field in found.fields if field.name in names), None)
    if field is None:
        return None
    # Octets are left behind LG, the TPCI and as many octets as LG says.
    return field.place + 2 + field.value if field.name == "cemi.len" and number == 5 else field.place


def facts(row, parts, ours, found):
    number = ours["refusal"]
    yield Fact("number", number, shown_number(row, found))
    if number == 0:
        acknowledged = row.form == "acknowledgement"
        yield from acknowledged_facts(ours, found) if acknowledged else accepted_facts(row, parts, ours, found)
        return
    yield Fact("place", ours["place"], shown_place(row, number, found))
    marked = marks_fault(row, number, found)
    yield Fact(f"refusal {number}", "refused", "refused" if marked else "not marked")
