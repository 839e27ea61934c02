"""What tshark makes of rows: a capture file written here, its dissection read back."""

import os
import pathlib
import re
import subprocess
import sys
import tempfile
import xml.etree.ElementTree
from collections import namedtuple

# Link types of capture files: an IP datagram; the first of those kept for users.
IP, USER = 101, 147
# The user's link type is read as cEMI with nothing around it.
AS_CEMI = 'uat:user_dlts:"User 0 (DLT=147)","cemi","0","","0",""'
IP_HEADER, UDP_HEADER, PORT = 20, 8, 3671
DISSECTORS = ("kip", "cemi")

# `place` counts in the row's octets; `octets` are all that a field is taken from, `value` is None where
# there are none. A mark hangs on the field, or on the words that tshark puts in place of one.
Field = namedtuple("Field", "name place octets value words")
Mark = namedtuple("Mark", "on place words")


class Dissection:
    """The fields that tshark shows, in its order, and its marks of an error or a warning.

    `packets` is how many KNXnet/IP packets it sees in a datagram; the fields are the first one's."""

    def __init__(self):
        self.fields, self.marks, self.packets = [], [], 0

    def value(self, name):
        return next((field.value for field in self.fields if field.name == name), None)

    def word(self, name):
        """The last word of `Destination: 0x1234 = 2/2/52`, and of `Frame Type: Standard (1)`."""
        words = next((field.words for field in self.found(name)), "")
        return re.sub(r" \(\d+\)$", "", words).rpartition(" ")[2]

    def found(self, name):
        return [field for field in self.fields if field.name == name]


def checksum(header):
    total = sum(int.from_bytes(header[at : at + 2], "big") for at in range(0, len(header), 2))
    while total >> 16:
        total = (total & 0xFFFF) + (total >> 16)
    return (0xFFFF - total).to_bytes(2, "big")


def in_udp(octets, form):
    """The datagram as it is sent: in routing to the multicast address 224.0.23.12."""
    to = (224, 0, 23, 12) if form == "routing" else (192, 168, 1, 2)
    length = UDP_HEADER + len(octets)
    ports = PORT.to_bytes(2, "big") * 2
    head = b"\x45\x00" + (IP_HEADER + length).to_bytes(2, "big") + bytes((0, 0, 0, 0, 16, 17))
    ends = bytes((192, 168, 1, 1, *to))
    head += checksum(head + ends) + ends
    return head + ports + length.to_bytes(2, "big") + b"\0\0" + octets


def capture(link, packets):
    words = (0xA1B2C3D4, 0x00020004, 0, 0, 0xFFFF, link)
    octets = b"".join(word.to_bytes(4, "big") for word in words)
    for packet in packets:
        length = len(packet).to_bytes(4, "big")
        octets += bytes(8) + length + length + packet
    return octets


def field_of(node, place):
    """tshark gives the octets in hex; of a masked field, these and the value of its bits."""
    digits = node.get("value") or ""
    octets = bytes.fromhex(node.get("unmaskedvalue") or digits)
    return Field(node.get("name"), place, octets, int(digits, 16) if digits else None, node.get("showname"))


def walk(node, start, into, on):
    """Takes the fields and marks below a node of tshark's tree; `on` is what a mark hangs on."""
    for field in node:
        name = field.get("name")
        place = int(field.get("pos")) - start
        if name == "_ws.expert":
            words = next(f.get("show") for f in field if f.get("name") == "_ws.expert.message")
            into.marks.append(Mark(*on, words))
        elif name.startswith(("cemi.", "knxip.")) and not name.endswith(".folder"):
            into.fields.append(field_of(field, place))
        walk(field, start, into, (name or field.get("show"), place))


def dissection(packet, form):
    start = 0 if form == "cemi" else IP_HEADER + UDP_HEADER
    into = Dissection()
    for protocol in packet.iter("proto"):
        name = protocol.get("name")
        into.packets += name == "kip"
        if name in DISSECTORS and into.packets < 2:
            walk(protocol, start, into, (name, int(protocol.get("pos")) - start))
        elif name == "_ws.malformed" and protocol.get("hide") != "yes":
            into.marks.append(Mark("packet", 0, protocol.get("showname")))
    return into


def dissect(rows, form):
    """A dissection for each row."""
    alone = form == "cemi"
    packets = [row.octets if alone else in_udp(row.octets, form) for row in rows]
    with tempfile.TemporaryDirectory() as directory:
        file = pathlib.Path(directory) / "rows.pcap"
        file.write_bytes(capture(USER if alone else IP, packets))
        ended = subprocess.run(
            ["tshark", "-n", "-r", str(file), "-o", AS_CEMI, "-T", "pdml", "-J", " ".join(DISSECTORS)],
            # What a user has set up for tshark is none of ours.
            env={**os.environ, "WIRESHARK_CONFIG_DIR": directory},
            capture_output=True,
        )
    if ended.returncode:
        sys.exit(f"tshark ended with status {ended.returncode}: {ended.stderr.decode()}")
    found = [dissection(packet, form) for packet in xml.etree.ElementTree.fromstring(ended.stdout).iter("packet")]
    if len(found) != len(rows):
        sys.exit(f"tshark has dissected {len(found)} of {len(rows)} packets")
    return found
