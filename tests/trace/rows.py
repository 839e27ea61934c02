#!/usr/bin/env python3
"""Writes the rows beside it: NAME.stdin, which the program `trace` reads, and NAME.stdout, which it must
write. Both come from document 01 alone, by the few functions below; where it prints a list itself, the row
has that list. tools/check-trace runs the program on the rows."""

import pathlib

HERE = pathlib.Path(__file__).resolve().parent
MARK = bytes.fromhex("43 50")
OPEN, CLOSED, FILTERED = (2, 2, 2, 2), (0, 0, 0, 0), (1, 2, 2, 2)
NO_TABLE = 0xFF
# The couplers of P12 and P13.
FITTED = (0x20, 0x40, 0x45, 0x47)
EVERY = range(0x01, 0x100)
DOWN, UP = 0, 1


def query(line, kind, destination, count):
    return bytes([line, kind, *destination.to_bytes(2, "big"), count])


def record(line, down=OPEN, up=OPEN, table=NO_TABLE, mark=MARK):
    return mark + bytes([line, *down, *up, table])


def site(lines, down=OPEN, up=OPEN):
    return b"".join(record(line, down, up) for line in lines)


def fault_of_record(octets, lines_before):
    """Record by record: 16, 15 (line, codes), 18, 17. The stores are empty, so FFh alone can be."""
    line, codes, table = octets[2], octets[3:11], octets[11]
    if octets[:2] != MARK:
        return 16
    if line == 0 or max(codes) > 2 or 1 in (codes[1], codes[5]):
        return 15
    if table != NO_TABLE or 1 in codes[2:4] + codes[6:8]:
        return 18
    return 17 if line in lines_before else 0


def refusal(octets):
    """The program's tests, then the tracer's; its room is always large enough (13)."""
    if len(octets) < 5:
        return 1
    if len(octets) > 3065:
        return 5
    if octets[1] > 1 or octets[4] > 7:
        return 14
    if (len(octets) - 5) % 12:
        return 16
    lines = []
    for record in records(octets):
        fault = fault_of_record(record, lines)
        if fault:
            return fault
        lines.append(record[2])
    return 0


def records(octets):
    return [octets[at : at + 12] for at in range(5, len(octets), 12)]


def to_backbone(line):
    """ "the line of n, then its main side, and so on to 00h" """
    main_side = line - line % 16 if line % 16 else 0
    return [line] + (to_backbone(main_side) if line else [])


def path(start, line):
    """The couplers between two lines in their order, each with the direction of travel."""
    here, there = to_backbone(start), to_backbone(line)
    common = next(n for n in here if n in there)
    down = there[: there.index(common)]
    return [(n, UP) for n in here[: here.index(common)]] + [(n, DOWN) for n in reversed(down)]


def lets_pass(coupler, codes, direction, kind, destination):
    if kind == 0 and destination == coupler * 256:
        return False
    if kind == 0:
        code = codes[0]
    elif destination == 0:
        code = codes[1]
    else:
        code = codes[2] if destination < 0x7000 else codes[3]
    if code != 1:
        return code == 2
    # An individual address, since groups with code 1 need a table.
    line = destination // 256
    below = line == coupler if coupler % 16 else line // 16 == coupler // 16
    return below == (direction == DOWN)


def reached(octets):
    """The list: line, count on arrival and couplers crossed of each line that the telegram comes to."""
    start, kind, destination, count = octets[0], octets[1], int.from_bytes(octets[2:4], "big"), octets[4]
    fitted = {record[2]: (record[3:7], record[7:11]) for record in records(octets)}
    for line in range(256):
        crossed = path(start, line)
        passed = all(n in fitted and lets_pass(n, fitted[n][way], way, kind, destination) for n, way in crossed)
        if passed and (count == 7 or len(crossed) <= count):
            yield line, 7 if count == 7 else count - len(crossed), len(crossed)


def text(listed):
    lines = [f"{line // 16}.{line % 16} count {count} crossed {crossed}\n" for line, count, crossed in listed]
    return "".join(lines) + f"forwardings {len(lines) - 1}\n"


def answer(octets):
    number = refusal(octets)
    return f"refused {number}\n" if number else text(reached(octets))


# A group from 4.7, over P12's couplers and over all that there can be.
GROUP = query(0x47, 1, 0x1234, 2)
LARGEST = query(0xFF, 1, 0x1234, 7) + site(EVERY)

# What document 01 itself answers: P12 and P13.
PRINTED = {
    "count_zero": (query(0x47, 1, 0x1234, 0) + site(FITTED), "47 00 00"),
    "count_two": (GROUP + site(FITTED), "00 00 02 40 01 01 45 00 02 47 02 00"),
    "count_seven": (query(0x47, 1, 0x1234, 7) + site(FITTED), "00 07 02 20 07 03 40 07 01 45 07 02 47 07 00"),
    "individual": (query(0x20, 0, 0x4700, 6) + site(FITTED, FILTERED, FILTERED), "00 05 01 20 06 00 40 04 02"),
    "individual_other_line": (query(0x47, 0, 0x4901, 6) + site(FITTED, FILTERED, FILTERED), "40 05 01 47 06 00"),
}
LISTS = {
    "empty_site": GROUP,
    "full_site": LARGEST,
    "full_site_count_three": query(0xFF, 1, 0x1234, 3) + site(EVERY),
    "coupler_missing": query(0x47, 1, 0x1234, 7) + site((0x20, 0x45, 0x47)),
    "own_address": query(0x40, 0, 0x4700, 6) + site(FITTED),
    "individual_area_zero": query(0x12, 0, 0x0305, 6) + site((0x03, 0x04, 0x10, 0x12), FILTERED, FILTERED),
    "group_area_zero": query(0x12, 1, 0x1234, 3) + site((0x03, 0x04, 0x10, 0x12)),
    "down_only": query(0x40, 1, 0x1234, 6) + site(FITTED, OPEN, CLOSED),
    "up_only": query(0x47, 1, 0x1234, 6) + site(FITTED, CLOSED, OPEN),
    "broadcast": query(0x47, 1, 0x0000, 6) + site(FITTED, (0, 2, 0, 0), (0, 2, 0, 0)),
    "broadcast_closed": query(0x47, 1, 0x0000, 6) + site(FITTED, (2, 0, 2, 2), (2, 0, 2, 2)),
    "group_6fff": query(0x47, 1, 0x6FFF, 6) + site(FITTED, (0, 0, 2, 0), (0, 0, 2, 0)),
    "group_7000": query(0x47, 1, 0x7000, 6) + site(FITTED, (0, 0, 2, 0), (0, 0, 2, 0)),
}
# What is refused, and by which number.
REFUSED = {
    "no_octets": (1, b""),
    "too_few": (1, GROUP[:4]),
    "too_many": (5, LARGEST + b"C"),
    "far_too_many": (5, LARGEST * 2),
    "too_many_of_wrong_kind": (5, query(0xFF, 2, 0x1234, 7) + site(EVERY) + b"C"),
    "wrong_kind": (14, query(0x47, 2, 0x1234, 2) + site(FITTED)),
    "wrong_count": (14, query(0x47, 1, 0x1234, 8) + site(FITTED)),
    "wrong_count_before_length": (14, query(0x47, 1, 0x1234, 8) + site(FITTED)[:-1]),
    "wrong_length": (16, GROUP + site(FITTED)[:-1]),
    "wrong_length_before_line": (16, GROUP + record(0x00) + b"C"),
    "wrong_mark": (16, GROUP + site(FITTED) + record(0x01, mark=bytes.fromhex("42 50"))),
    "wrong_second_mark": (16, GROUP + site(FITTED) + record(0x01, mark=bytes.fromhex("43 51"))),
    "wrong_mark_before_line": (16, GROUP + record(0x00, mark=bytes.fromhex("43 51"))),
    "line_zero": (15, GROUP + site(FITTED) + record(0x00)),
    "wrong_code": (15, GROUP + site(FITTED) + record(0x01, down=(2, 2, 2, 3))),
    "wrong_code_up": (15, GROUP + site(FITTED) + record(0x01, up=(3, 2, 2, 2))),
    "broadcast_filtered": (15, GROUP + site(FITTED) + record(0x01, down=(2, 1, 2, 2))),
    "wrong_code_in_an_earlier_record": (15, GROUP + record(0x20, down=(3, 2, 2, 2)) + record(0x40, mark=b"cp")),
    "wrong_code_before_table": (15, GROUP + record(0x20, down=(3, 2, 2, 2), table=0)),
    "group_filtered_without_table": (18, GROUP + site(FITTED) + record(0x01, up=(2, 2, 1, 2))),
    "table_of_empty_project_store": (18, GROUP + site(FITTED) + record(0x01, table=0)),
    "table_of_empty_own_store": (18, GROUP + site(FITTED) + record(0x01, table=128)),
    "table_before_line_twice": (18, GROUP + site(FITTED) + record(0x40, table=0)),
    "line_twice": (17, GROUP + site(FITTED) + record(0x40)),
}


def wanted():
    """Each row's octets and what must be written for them. Numbers and lists said above have to agree with
    what the functions work out."""
    for name, (octets, listed) in PRINTED.items():
        octet = list(bytes.fromhex(listed))
        yield name, octets, text(zip(octet[::3], octet[1::3], octet[2::3]))
    for name, octets in LISTS.items():
        yield name, octets, text(reached(octets))
    for name, (number, octets) in REFUSED.items():
        yield name, octets, f"refused {number}\n"


def rows():
    """The files and what stands in them."""
    files = {}
    for name, octets, output in wanted():
        if output != answer(octets):
            raise ValueError(f"{name}: said one way and worked out another")
        files |= {f"{name}.stdin": octets, f"{name}.stdout": output.encode()}
    return files


def main():
    for name, content in rows().items():
        (HERE / name).write_bytes(content)


if __name__ == "__main__":
    main()
