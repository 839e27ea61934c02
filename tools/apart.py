"""Which pointers of the library's module reach what nothing else does, and the module's text with that said:
tools/mark-apart writes it, tools/check-apart tests it.

`noalias` is put on the pointer of every slice that an exported function is lent to be written (`&mut [u8]` in
crates/klumdray_c/src/lib.rt), and on nothing else. LLVM reads it so: while the call runs, an octet that is reached by
this pointer, and that anything writes, is reached by no pointer that is not derived from this one. Why it holds:

- Inside, it is the language's rule for `&mut`: nothing else may reach what is lent to be written. An exported
  function of the module packs pointer and length into a slice and calls the proved function, and does nothing else;
  tools/check-apart sees to that.
- At the border, it is what include/klumdray.h asks of a C caller ("Apart"), what Rust's borrow rules give the
  bindings, and what the `_checked` forms see to.
- A slice of length 0 reaches no octet, so that its pointer may be null, or any.

A slice that is lent to be read (`&[u8]`) goes without: that what is written is reached by nothing else is said
already by the pointer that it is written by, and two slices that are read may overlap.

An attribute too many would be a hole that no proof sees. So a module that is not, parameter by parameter, what the
signatures say is refused, and so is whatever is not known here."""

import re
from collections import namedtuple

from sources import ROOT, without_comments

SOURCE = ROOT / "crates" / "klumdray_c" / "src" / "lib.rt"

# `kinds` are the types of the parameters in the module, `written` the places of the pointers that get the attribute.
Export = namedtuple("Export", "answer kinds written")

EXTERN = re.compile(r'\bextern\s*"')
EXPORTED = re.compile(r'^pub extern "C" fn (\w+)(?:<[^<>]*>)?\(([^()]*)\) -> (\w+)$', re.M)
LENT = re.compile(r"\w+: &(?:'\w+ )?(mut )?\[u8\]")
NUMBER = re.compile(r"\w+: (u32|i64)")
NUMBERS = {"u32": "i32", "i64": "i64"}
ANSWERS = {"u32": "i32", "u64": "i64"}

DEFINED = re.compile(r"\s*define\b")
INTERNAL = re.compile(r'define internal [^@]*@"')
HEAD = re.compile(r"(define noundef (i32|i64) @(\w+)\()([^()]*)(\) #\d+ \{)")


class Refused(Exception):
    """What is not as it has to be, in one sentence."""


def export(name, inside, answer):
    """What the signature of a function says of its parameters in the module: a slice is two of them."""
    kinds, written = [], []
    for part in inside.split(","):
        # Behind the last comma there is none.
        part = part.strip()
        lent, number = LENT.fullmatch(part), NUMBER.fullmatch(part)
        if lent:
            written += [len(kinds)] if lent[1] else []
            kinds += ["ptr", "i64"]
        elif number:
            kinds.append(NUMBERS[number[1]])
        elif part:
            raise Refused(f"{name}: its signature has a parameter of another kind, {part}")
    if answer not in ANSWERS:
        raise Refused(f"{name}: its signature has an answer of another kind, {answer}")
    return Export(ANSWERS[answer], kinds, written)


def exports(source):
    """Each function that the crate exports."""
    text = without_comments(source)
    found = {name: export(name, inside, answer) for name, inside, answer in EXPORTED.findall(text)}
    # Nothing that is exported is passed over.
    if len(found) != len(EXTERN.findall(text)):
        raise Refused("the crate has an exported function whose signature is of another shape, or two of one name")
    return found


def parameters(kinds, written):
    marks = ["noalias " if place in written else "" for place in range(len(kinds))]
    return ", ".join(f"{kind} {mark}noundef %a{place}" for place, (kind, mark) in enumerate(zip(kinds, marks)))


def marked_head(line, rest):
    """The first line of an exported function with its attributes; the function is taken out of `rest`."""
    head = HEAD.fullmatch(line)
    if not head:
        raise Refused(f"the module has a function whose first line is of another shape: {line}")
    before, answer, name, inside, behind = head.groups()
    if name not in rest:
        raise Refused(f"{name}: the module exports it and the crate does not")
    said = rest.pop(name)
    if (answer, inside) != (said.answer, parameters(said.kinds, [])):
        raise Refused(f"{name}: its parameters in the module are not those of its signature")
    return before + parameters(said.kinds, said.written) + behind


def marked(module, source):
    """The module's text with the attributes; `source` is the text of the crate that exports its functions."""
    if "noalias" in module:
        raise Refused("the module has the attribute noalias already")
    rest = exports(source)
    lines = module.split("\n")
    for place, line in enumerate(lines):
        if DEFINED.match(line) and not INTERNAL.match(line):
            lines[place] = marked_head(line, rest)
    if rest:
        raise Refused(f"{', '.join(rest)}: the crate exports it and the module does not")
    return "\n".join(lines)
