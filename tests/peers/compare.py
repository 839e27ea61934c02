"""Compares what `klumdray decode` and tshark say of the same cEMI messages, routing and tunnelling
datagrams, and prints each class of differences. Ends with status 1 if a difference falls into no class, or a
class is not what its rule says. The one argument is the program."""

import json
import subprocess
import sys
from collections import namedtuple

import classes
import dissect
import facts
import rows

# The option that has `klumdray decode` read a form.
OPTIONS = {
    "cemi": "--cemi",
    "routing": "--routing",
    "request": "--tunnelling-request",
    "acknowledgement": "--tunnelling-ack",
}

# A row with what both say of it; `facts` by their names, `differing` the names of those that differ.
Case = namedtuple("Case", "row parts ours found facts differing")


def decoded(program, form, text, *words):
    """The answers to frames given as words, or as lines of text; a refusal is no fault here."""
    command = [program, "decode", "--json", OPTIONS[form], *words]
    ended = subprocess.run(command, input=text, stdout=subprocess.PIPE, text=True)
    if ended.returncode not in (0, 1):
        sys.exit(f"{' '.join(command)} ended with status {ended.returncode}")
    return [json.loads(line) for line in ended.stdout.splitlines()]


def decode(program, listed, form):
    """Our answer to each row. A line of no octets is passed over, a word of none is read."""
    answers = decoded(program, form, "".join(f"{row.octets.hex()}\n" for row in listed if row.octets))
    answers += decoded(program, form, None, "")
    by_octets = {answer["octets"]: answer for answer in answers}
    missing = [row for row in listed if row.octets.hex() not in by_octets]
    if missing:
        sys.exit(f"{program} decode has no answer to {missing[0].octets.hex(' ')}")
    return [by_octets[row.octets.hex()] for row in listed]


def cases(program, form):
    listed = rows.rows(form)
    for row, ours, found in zip(listed, decode(program, listed, form), dissect.dissect(listed, form)):
        parts = classes.Parts(row)
        named = {fact.name: fact for fact in facts.facts(row, parts, ours, found)}
        differing = [name for name, fact in named.items() if fact.ours != fact.theirs]
        yield Case(row, parts, ours, found, named, differing)


def class_of(case, name):
    listed = (c for c in classes.CLASSES if name in c.facts and c.rule(case.parts))
    return next(listed, None)


def sort_out(all_cases):
    """The cases of each class with what differs, and those of no class."""
    sorted_out = {c: [] for c in (*classes.CLASSES, None)}
    for case in all_cases:
        for name in case.differing:
            sorted_out[class_of(case, name)].append((case, name))
    unknown = sorted_out.pop(None)
    return sorted_out, unknown


def beyond(c, all_cases):
    """The cases of which an exact rule holds, but which do not differ so."""
    for case in all_cases if c.exact else ():
        told = [name for name in c.facts if name in case.facts]
        if told and c.rule(case.parts) and not set(told) <= set(case.differing):
            yield case, told[0]


def in_hex(case, most=32):
    octets = case.row.octets
    more = f" .. ({len(octets)} octets)" if len(octets) > most else ""
    return f"{case.row.form} {octets[:most].hex(' ').upper() or 'no octets'}{more}"


def words(case, name):
    fact = case.facts[name]
    return f"{name}: ours {fact.ours}, tshark {fact.theirs}"


def print_class(c, listed):
    print(f"\n{c.name}")
    print(f"  rule     {'exactly where' if c.exact else 'only where'} {c.rule.__doc__}")
    print(f"  rows     {len({id(case) for case, _ in listed})}")
    if listed:
        case, name = min(listed, key=lambda pair: (len(pair[0].row.octets), pair[0].row))
        print(f"  example  {in_hex(case)}")
        print(f"           {words(case, name)}")
    print(f'  right    {c.right}: "{c.sentence}"')


def print_verdicts(all_cases):
    """How many rows we accept or refuse, beside those in which tshark marks something or nothing."""
    print("                 rows  accepted   refused  accepted   refused")
    print("                       unmarked    marked    marked  unmarked")
    for form in rows.FORMS:
        verdicts = [(c.ours["refusal"] == 0, c.found.marks == []) for c in all_cases if c.row.form == form]
        counts = [verdicts.count(v) for v in ((True, True), (False, False), (True, False), (False, True))]
        print(f"{form:15}{len(verdicts):6}" + "".join(f"{count:10}" for count in counts))


def print_faults(listed, head):
    for case, name in listed[:5]:
        print(f"\n{head}: {in_hex(case, sys.maxsize)} ({case.row.origin})\n  {words(case, name)}")
    if len(listed) > 5:
        print(f"\n{head}: {len(listed) - 5} more")
    return len(listed)


def main(program):
    all_cases = [case for form in rows.FORMS for case in cases(program, form)]
    print_verdicts(all_cases)
    sorted_out, unknown = sort_out(all_cases)
    faults = print_faults(unknown, "in no class")
    for c, listed in sorted_out.items():
        print_class(c, listed)
        faults += print_faults(list(beyond(c, all_cases)), f"{c.name}: the rule holds, nothing differs")
        if not listed or not c.rule.__doc__:
            print("  a class of no rows, or without its rule in words")
            faults += 1
    number = sum(len(listed) for listed in sorted_out.values())
    compared = sum(len(case.facts) for case in all_cases)
    known = f"{number} of them differ in {len(sorted_out)} classes"
    print(f"\n{len(all_cases)} rows, {compared} facts, {known}, {faults} faults")
    return 1 if faults else 0


if __name__ == "__main__":
    sys.exit(main(sys.argv[1]))
