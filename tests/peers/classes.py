"""The classes that differences fall into. Each is a rule on the octets of a row; the docstring of the
rule says it in words, the sentence is document 01's, or document 02's (R-1)."""

from collections import namedtuple

from rows import CONNECTION, HEADER, SERVICES, START

# cEMI's other message codes, which tshark reads: L_Raw, L_Poll_Data, L_Busmon, T_Data and the
# local device management.
OTHER_CODES = bytes.fromhex("10 13 25 2B 2D 2F 41 4A 89 94 F0 F1 F5 F6 F7 F8 F9 FA FB FC")

# `facts` is what differs, as compare.py names it. `exact`: a row of that kind differs exactly if the
# rule holds; otherwise the rule says only where tshark looks further than document 01.
Class = namedtuple("Class", "name facts rule exact right sentence")


class Parts:
    """The parts of a row as far as its octets go, by the documents' layouts; None where they end."""

    def __init__(self, row):
        octets = row.octets
        self.form, self.size = row.form, len(octets)
        self.total = self.service = None
        if row.form != "cemi" and len(octets) >= HEADER:
            self.service, self.total = (int.from_bytes(octets[k : k + 2], "big") for k in (2, 4))
        self.fourth = at(octets, HEADER + CONNECTION - 1)
        octets = octets[START[row.form] :]
        self.code, self.a = at(octets, 0), at(octets, 1)
        self.information = octets[2 : 2 + (self.a or 0)]
        behind = octets[2 + (self.a or 0) :]
        self.control, self.hops, self.length = at(behind, 0), at(behind, 1), at(behind, 6)
        self.payload = behind[7:]
        self.tpci = at(self.payload, 0)


def at(octets, place):
    return octets[place] if place < len(octets) else None


def filled(parts):
    return len(parts.payload) == parts.length + 1


def error_mark(parts):
    """the message code is not 2Eh, and bit 0 of Ctrl1 is 1"""
    return parts.code != 0x2E and parts.control & 1 == 1


def request(parts):
    """the message code is 11h"""
    return parts.code == 0x11


def total_below_header(parts):
    """the total length is below 6"""
    return parts.total is not None and parts.total < HEADER


def total_below_datagram(parts):
    """the total length is below the datagram's"""
    return parts.total < parts.size


def nothing(parts):
    """a datagram has no octets"""
    return parts.form != "cemi" and parts.size == 0


def eff(parts):
    """bits 3 to 0 of Ctrl2 are not 0000"""
    return parts.hops & 0x0F != 0


def length_escape(parts):
    """the LG octet is 255, and 256 octets follow it"""
    return parts.length == 255 and filled(parts)


def long_standard(parts):
    """bit 7 of Ctrl1 is 1, the LG octet is above 15, and as many octets and the TPCI follow it"""
    return parts.control & 0x80 != 0 and parts.length > 15 and filled(parts)


def information_escape(parts):
    """a is 255, and 255 octets or more follow it"""
    return parts.a == 255 and len(parts.information) == 255


def other_code(parts):
    """the message code is one of cEMI's others; in routing also 11h or 2Eh"""
    return parts.code in (*OTHER_CODES, 0x11, 0x2E)


def other_service(parts):
    """the service is not the form's: 0530h, 0420h, 0421h"""
    return parts.service != SERVICES[parts.form]


def fourth_octet(parts):
    """the octet behind a request's counter is not 00h"""
    return parts.form == "request" and parts.fourth != 0


def behind_elements(information, least):
    """What is left behind a row of elements, each a kind, a length from the least on and as many octets."""
    while len(information) >= 2 and least <= information[1] <= len(information) - 2:
        information = information[2 + information[1] :]
    return information


def loose_information(parts):
    """additional information is not a row of elements, each a kind, a length of 1 or more and as many octets"""
    return behind_elements(parts.information, 1) != b""


def cut_element(parts):
    """additional information ends inside the octets of an element"""
    return len(behind_elements(parts.information, 0)) > 2


def unnumbered(parts):
    """bit 6 of the TPCI is 0, and bits 5 to 2 are not all 0"""
    return parts.tpci & 0x40 == 0 and parts.tpci & 0x3C != 0


def control_with_octets(parts):
    """bit 7 of the TPCI is 1, and LG is not 0"""
    return parts.tpci & 0x80 != 0 and parts.length > 0


def data_alone(parts):
    """bit 7 of the TPCI is 0, and LG is 0"""
    return parts.tpci & 0x80 == 0 and parts.length == 0


def application(parts):
    """bit 7 of the TPCI is 0, and LG is not 0"""
    return parts.tpci & 0x80 == 0 and parts.length > 0


OURS = "ours"
AS_IT_STANDS = "ours; tshark shows the bit as it stands"
INSIDE = "ours; tshark reads on in octets that are only handed out"
PAYLOAD = "payload (TPCI onward, 1 to 16 octets standard, 1 to 255 extended)"
HANDED_OUT = "The payload is handed out as the very octets received, not copied; additional information likewise."
TOTAL = "12 | total length differs from the datagram's"

CLASSES = (
    Class("error mark outside a confirmation", ("error mark",), error_mark, True, AS_IT_STANDS,
          "bit 0 is the error mark, read in a confirmation only and otherwise reported 0"),
    Class("repeat flag of a request", ("repeat flag in words",), request, True, OURS,
          "in a request, bit 5 at 1 asks for repetitions, 003"),
    Class("datagram of no octets", ("refusal 1",), nothing, True, OURS,
          "Routing: fewer than 6 octets (1)"),
    Class("total length below 6", ("number", "place", "refusal 10", "refusal 11", "refusal 12"), total_below_header,
          True, OURS, TOTAL),
    Class("other service", ("refusal 11",), other_service, True, OURS,
          "Refusal 11 now names the service wanted by the call."),
    Class("several packets in a datagram", ("refusal 12",), total_below_datagram, True, OURS, TOTAL),
    Class("other message code", ("refusal 7",), other_code, True, OURS,
          "7 | message code not 11h, 2Eh, 29h; in routing, not 29h"),
    Class("a = 255", ("refusal 8",), information_escape, True, OURS,
          "8 | a = 255"),
    Class("EFF not 0000", ("refusal 3",), eff, True, OURS,
          "EFF must be 0000 here."),
    Class("LG octet 255", ("refusal 4",), length_escape, True, OURS,
          "LG is 0 to 254; 255 is an escape (002)."),
    Class("standard with LG above 15", ("refusal 9",), long_standard, True, OURS,
          "9 | cEMI standard with LG above 15"),
    Class("octet behind a request's counter", ("mark on the octet 00h",), fourth_octet, True, OURS,
          "The octet 00h isn't read."),
    Class("additional information in no elements", ("mark in the information",), loose_information, True, INSIDE,
          "a octets of additional information (a up to 254)"),
    Class("additional information ends in an element", ("octets shown of the information",), cut_element, True, OURS,
          HANDED_OUT),
    Class("sequence number without numbering", ("mark on the sequence number",), unnumbered, True, INSIDE, PAYLOAD),
    Class("control TPCI with octets behind it", ("mark in the payload",), control_with_octets, True, INSIDE, PAYLOAD),
    Class("data TPCI alone", ("mark in the payload",), data_alone, True, INSIDE, PAYLOAD),
    Class("application data", ("mark in the payload",), application, False, INSIDE, HANDED_OUT),
)
