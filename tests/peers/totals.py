"""Adds up a leak meter's increments from the fields that tshark shows of a capture, and compares the
sum, and the number of frames of the group, with what `klumdray total` says.

Arguments: the program, then captures; a capture of a tunnel is made here besides."""

import json
import os
import pathlib
import subprocess
import sys
import tempfile
from collections import namedtuple

import dissect
from rows import SEED, Chance

GROUP, METER = 0x1234, 0x4715
INVALID = 0x7FFF
# An indication that tshark marks nothing in; one with another EFF it reads, too.
WHOLE = "cemi.mc == 0x29 && cemi.eff == 0 && !_ws.expert"
FIELDS = ("cemi.rep", "cemi.at", "cemi.da", "cemi.len", "cemi.tpt", "cemi.ac", "cemi.ad", "cemi.data", "cemi.ft",
          "cemi.prio", "cemi.hc", "cemi.sa", "cemi.ax", "knxip.channel", "knxip.seqctr")
SENT = ("knxip.channel", "knxip.seqctr")

Sums = namedtuple("Sums", "frames counted repetitions sent_again hundredths")


def shown(file):
    """What tshark shows of each indication in a capture, in its order."""
    listed = [word for field in FIELDS for word in ("-e", field)]
    with tempfile.TemporaryDirectory() as directory:
        ended = subprocess.Popen(
            ["tshark", "-n", "-r", str(file), "-Y", WHOLE, "-T", "fields", "-E", "separator=|", *listed],
            env={**os.environ, "WIRESHARK_CONFIG_DIR": directory},
            stdout=subprocess.PIPE, stderr=subprocess.DEVNULL, text=True,
        )
        for row in ended.stdout:
            yield dict(zip(FIELDS, row.rstrip("\n").split("|")))
        if ended.wait():
            sys.exit(f"tshark ended with status {ended.returncode} on {file}")


def hundredths(code):
    """Document 02: sign and mantissa form a number of twelve bits in two's complement."""
    number = code & 0x7FF | (code >> 15) << 11
    return (number - 4096 if number & 0x800 else number) << (code >> 11 & 15)


def code_of(frame):
    """The two octets of a GroupValueWrite, if it has two."""
    written = frame["cemi.ac"] and int(frame["cemi.ac"], 0) == 2 and frame["cemi.len"] == "3"
    return int(frame["cemi.data"], 16) if written and len(frame["cemi.data"]) == 4 else None


def is_of_group(frame):
    return frame["cemi.at"] == "1" and int(frame["cemi.da"], 0) == GROUP


def told_by_tshark(file):
    frames = counted = repetitions = sent_again = total = 0
    before = sent = None
    for frame in shown(file):
        request = tuple(frame[name] for name in SENT)
        again = request[0] != "" and request == sent
        sent = request
        frames += is_of_group(frame)
        if again:
            sent_again += 1
            continue
        rest = {name: value for name, value in frame.items() if name not in (*SENT, "cemi.rep")}
        code = code_of(frame) if is_of_group(frame) else None
        if is_of_group(frame) and frame["cemi.rep"] == "0" and rest == before:
            repetitions += 1
        elif code == INVALID:
            continue
        elif code is not None:
            counted, total = counted + 1, total + hundredths(code)
        before = rest
    return Sums(frames, counted, repetitions, sent_again, total)


def told_by_us(program, file):
    words = [program, "total", str(file), "--group", str(GROUP), "--json"]
    ended = subprocess.run(words, capture_output=True, text=True)
    if ended.returncode:
        sys.exit(f"{' '.join(words)} ended with status {ended.returncode}: {ended.stderr}")
    ours = json.loads(ended.stdout)
    refused = {row["number"]: row["count"] for row in ours["refusals"]}
    frames = ours["counted"] + ours["repetitions"] + ours["no_increment"] + refused.get(23, 0) + refused.get(24, 0)
    return Sums(frames + ours["sent_again"], ours["counted"], ours["repetitions"], ours["sent_again"],
                ours["total_hundredths"])


def tunnelled(chance, number):
    """Requests of one session; one in twenty is sent again, one in thirty is marked repeated too."""
    counter = chance.below(256)
    for _ in range(number):
        code = chance.one_of((0x0C1A, 0x0C1B, 0x87FF, chance.below(INVALID)))
        message = bytes((0x29, 0, 0xBC, 0xE0)) + METER.to_bytes(2, "big") + GROUP.to_bytes(2, "big")
        message += bytes((3, 0, 0x80)) + code.to_bytes(2, "big")
        marked = message[:2] + bytes((0x9C,)) + message[3:]
        for copy in (message, marked) if chance.below(30) == 0 else (message,):
            body = bytes((4, 57, counter, 0)) + copy
            request = bytes((6, 0x10, 4, 0x20)) + (6 + len(body)).to_bytes(2, "big") + body
            yield from (request, request) if chance.below(20) == 0 else (request,)
            counter = (counter + 1) % 256


def compare(program, file):
    ours, theirs = told_by_us(program, file), told_by_tshark(file)
    print(f"\n{pathlib.Path(file).name}")
    for name, own, other in zip(Sums._fields, ours, theirs):
        print(f"  {name:12}{own:>16,}{other:>16,}{'' if own == other else '  differs'}")
    return sum(own != other for own, other in zip(ours, theirs))


def main(program, files):
    with tempfile.TemporaryDirectory() as directory:
        tunnel = pathlib.Path(directory) / "tunnel.pcap"
        packets = [dissect.in_udp(octets, "request") for octets in tunnelled(Chance(SEED), 20_000)]
        tunnel.write_bytes(dissect.capture(dissect.IP, packets))
        faults = sum(compare(program, file) for file in (tunnel, *files))
    print(f"\n{1 + len(files)} captures added up, ours and tshark's, {faults} differences")
    return 1 if faults else 0


if __name__ == "__main__":
    sys.exit(main(sys.argv[1], sys.argv[2:]))
