"""What the C header, the Rust bindings and the emulated library say alike: the refusals, from the table in
crates/frame/specs/Refusals.antt, and the calls, as include/klumdray.h declares them, with the checked form
of each that writes. And the crate klumdray_c, which is compiled for them: for each public call of the crate
klumdray an export with its name, its parameters and its clauses, that does nothing but call it, and a law that
the two have one contract. tools/make-surface writes all this, tools/check-surface compares."""

import re
import textwrap
from collections import namedtuple

from sources import ROOT

TABLE = ROOT / "crates" / "frame" / "specs" / "Refusals.antt"
LIBRARY = ROOT / "crates" / "klumdray" / "src" / "lib.rt"
EXPORTS = ROOT / "crates" / "klumdray_c" / "src" / "lib.rt"
SAME = ROOT / "crates" / "klumdray_c" / "proofs" / "Same.antt"
HEADER = ROOT / "include" / "klumdray.h"
CONSTANTS = ROOT / "rust" / "klumdray" / "src" / "refusal.rs"
EXTERN = ROOT / "rust" / "klumdray" / "src" / "raw.rs"
EMULATED = ROOT / "tests" / "emulated" / "calls.h"

# The bindings' names of refusals that are not the table's in capitals.
CALLED = {
    "NotData": "ANOTHER_KIND",
    "OtherFormat": "EFF",
    "LeftOver": "OCTETS_LEFT",
    "WrongCheck": "CHECK_OCTET",
    "OtherCode": "MESSAGE_CODE",
    "InformationEscape": "INFORMATION",
    "LongStandard": "STANDARD_LG",
    "OtherHeader": "HEADER",
    "OtherService": "SERVICE",
    "OtherLength": "TOTAL_LENGTH",
    "SmallRoom": "ROOM",
    "OutOfRange": "RANGE",
    "WrongSetting": "SETTING",
    "WrongRecord": "SITE",
    "NoTable": "TABLE",
    "OtherConnection": "FIRST_OCTET",
    "NotOpen": "CHANNEL",
    "OtherCounter": "COUNTER",
}

Refusal = namedtuple("Refusal", "number name words")
# `parameters` are pairs of type and name, and `lines` says how many stand in each of the header's lines.
Call = namedtuple("Call", "answer name parameters lines")

# The refusal of an overlap: a number given by the caller, here an address, is outside its range.
OVERLAP = 14

# What is said of 0, and of a number that no row has.
ACCEPTED, NO_NUMBER = "not a refusal", "not a number of these calls"

ROW = re.compile(r"^-- (.*)\nnumber (\w+) = (\d+)$", re.M)
NUMBERED = re.compile(r"^number .*= ", re.M)
LAST = re.compile(r"^last_number = (\d+)$", re.M)
DECLARED = re.compile(r"^(uint\d+_t) (klumdray_\w+)\(([^()]*)\);$", re.M)
PARAMETER = re.compile(r"(const uint8_t \*|uint8_t \*|\w+ )(\w+)")
EXPORTED = re.compile(r'^pub extern "C" fn (klumdray_\w+)(?:<[^>]*>)?\(([^()]*)\) -> (\w+)', re.M)

# A public call of the crate klumdray: name, lifetimes, parameters, answer, and its clauses, a line each.
PROVED = re.compile(r"^pub fn (klumdray_\w+)(<[^>]*>)?\(([^()]*)\) -> (\w+)\n((?: {4}(?:requires|ensures)\b.*\n)*)\{$", re.M)
PUBLIC = re.compile(r"^pub\b.*\bfn ", re.M)
GHOST = re.compile(r"^ghost use .*;\n", re.M)
# What a line of a crate's source holds.
WIDTH = 100

# The types of numbers in the crate and in C; one with a sign has 64 bits.
NUMBERS = {f"u{width}": f"uint{width}_t" for width in (8, 16, 32, 64)} | {"i64": "int64_t"}
RUST = {"const uint8_t *": "*const u8", "uint8_t *": "*mut u8"} | {c: number for number, c in NUMBERS.items()}


def refusals():
    """The rows of the table, which rise from 1 to `last_number`; a number between may have none."""
    text = TABLE.read_text()
    rows = [Refusal(int(number), name, words) for words, name, number in ROW.findall(text)]
    last = [int(number) for number in LAST.findall(text)]
    numbers = [row.number for row in rows]
    rises = numbers == sorted(set(numbers)) and numbers[:1] == [1] and numbers[-1:] == last
    # A row without words would pass for a number without a row.
    if not rises or len(rows) != len(NUMBERED.findall(text)):
        raise SystemExit(f"{TABLE.relative_to(ROOT)}: its rows do not rise from 1 to last_number, words above each")
    return rows


def calls():
    """The calls that the header declares."""
    found = []
    for answer, name, inside in DECLARED.findall(HEADER.read_text()):
        parameters = [(kind.strip(), called) for kind, called in PARAMETER.findall(inside)]
        lines = [len(PARAMETER.findall(line)) for line in inside.split("\n")]
        found.append(Call(answer, name, parameters, lines))
    return found


def exports():
    """The types of each exported call of the crate, as the header has to declare them."""
    slices = {"&[u8]": ["const uint8_t *", "uint64_t"], "&mut [u8]": ["uint8_t *", "uint64_t"]}
    numbers = {number: [c] for number, c in NUMBERS.items()}
    found = {}
    for name, inside, answer in EXPORTED.findall(EXPORTS.read_text()):
        kinds = [re.sub(r"&'\w+ ", "&", part.split(":")[1].strip()) for part in inside.split(",") if part.strip()]
        found[name] = (*numbers[answer], *(word for kind in kinds for word in (slices | numbers)[kind]))
    return found


def laid_out(indent, begin, words, end):
    """A list in brackets as `rt fmt` lays it out: in one line, or each of its words in its own."""
    line = f"{indent}{begin}({', '.join(words)}){end}"
    if len(line) <= WIDTH:
        return line
    return "\n".join([f"{indent}{begin}(", *(f"{indent}    {word}," for word in words), f"{indent}){end}"])


def surface_crate():
    """The source of the crate klumdray_c."""
    library = LIBRARY.read_text()
    found = PROVED.findall(library)
    if len(found) != len(PUBLIC.findall(library)):
        raise SystemExit(f"{LIBRARY.relative_to(ROOT)}: a public call of another shape")
    text = """// The calls of the crate klumdray for C: each export has the name, the parameters and the clauses of the proved call,
// and does nothing but call it. tools/make-surface writes this file.
#![tactic(auto)]

"""
    text += "".join(GHOST.findall(library))
    for name, lifetimes, inside, answer, clauses in found:
        parameters = [part.strip() for part in inside.split(",") if part.strip()]
        text += "\n#[unsafe(no_mangle)]\n"
        text += laid_out("", f'pub extern "C" fn {name}{lifetimes}', parameters, f" -> {answer}") + "\n" + clauses + "{\n"
        text += laid_out("    ", f"klumdray::{name}", [part.split(":")[0] for part in parameters], "") + "\n}\n"
    return text


def same_contracts():
    """The laws of the crate klumdray_c: each export's contract is that of the call that it calls."""
    names = [name for name, *_ in PROVED.findall(LIBRARY.read_text())]
    text = """-- Each export asks and promises what the call of its name in the crate klumdray does: its contract, as the toolchain reads it off the source,
-- is that call's. So what is proved of those contracts is proved of the exports'. tools/make-surface writes this file.
use Prim.Native.Nat.{ℕ}
use mathlib.Core.List.{List}
use mathlib.Core.Path.{◌≡◌, refl}
use contract.Lifetimes.{Lfts}
use denote.Triple.Clauses.{AtExit}
use borrow.Fn.Kinds.{ParamKind, ResultKind, In, Out, Dens, res_t, ended_of}
use borrow.Fn.World.{World, Pr}
"""
    laws = """
-- A contract: its parameters and its result; the claims that are read off it, on the parameters at entry, and on the result and the parameters at
-- exit; and the clauses themselves, at every model of the logic.
pub record Contract : Type 3 where
  pub lifetimes : ℕ
  pub params : List (ParamKind lifetimes)
  pub result : ResultKind lifetimes
  pub pre : In lifetimes params
  pub post : Out lifetimes params result
  pub requires : (κs : Lfts lifetimes) → Dens κs params → (w : World) → Pr w
  pub ensures : (κs : Lfts lifetimes) → Dens κs params → (res_t result κs).Denot → AtExit (ended_of lifetimes params result) κs → (w : World) → Pr w
"""
    for name in names:
        short = name.removeprefix("klumdray_").replace("_", "-")
        read = []
        for crate, here in (("klumdray_c", "c-" + short), ("klumdray", short)):
            text += f"use Rattle.{crate}.proofs.{name}.Kinds as {here}-kinds\nuse Rattle.{crate}.proofs.{name}.Reads as {here}-reads\n"
            read.append(
                f"record {{ lifetimes = _; params = {here}-kinds.ps; result = {here}-kinds.r; pre = {here}-reads.Pre; post = {here}-reads.Post; "
                f"requires = λ κs a. {here}-reads.requires κs a tt; ensures = λ κs a. {here}-reads.ensures κs a tt }}"
            )
        laws += f"\npub {short}-same : ◌≡◌ {{A = Contract}} ({read[0]}) ({read[1]})\n{short}-same = refl\n"
    return text + laws


def arguments(call):
    """A call's arguments, a slice being one: what each is, and the names of its parameters. A number with a sign has
    64 bits, every other 32."""
    found, rest = [], list(call.parameters)
    while rest:
        kind, name = rest.pop(0)
        if kind.endswith("*"):
            found.append(("OCTETS" if kind.startswith("const") else "ROOM", name, rest.pop(0)[1]))
        else:
            found.append(("SIGNED" if kind == "int64_t" else "NUMBER", name))
    return found


def header_table():
    rows = [(0, ACCEPTED)] + [(row.number, row.words) for row in refusals()]
    return "".join(f" * {number:>4}  {words}\n" for number, words in rows)


def words_by_number():
    """What is said of each number from 0 to the last."""
    said = {0: ACCEPTED} | {row.number: row.words for row in refusals()}
    return [said.get(number, NO_NUMBER) for number in range(max(said) + 1)]


def header_words():
    return ",\n".join(f'        "{said}"' for said in words_by_number()) + "\n"


def constant(row):
    """A refusal of the bindings, documented by its words as a sentence."""
    name = CALLED.get(row.name) or re.sub(r"(?<=[a-z0-9])(?=[A-Z])", "_", row.name).upper()
    words = row.words
    if re.match(r"[a-z]+(-[a-z]+)* \w", words):
        words = words[0].upper() + words[1:]
    return f"    /// {words}.\n    pub const {name}: Refusal = Refusal({row.number});\n"


def constants():
    return "".join(map(constant, refusals()))


def rust_words():
    return "".join(f'    "{said}",\n' for said in words_by_number())


def extern():
    """The header's declarations in Rust, with its line ends."""
    text = ""
    for call in calls():
        begin = f"    fn {call.name}("
        parameters = [f"{name}: {RUST[kind]}" for kind, name in call.parameters]
        lines = []
        for count in call.lines:
            lines.append(", ".join(parameters[:count]))
            parameters = parameters[count:]
        text += begin + f",\n{' ' * len(begin)}".join(lines) + f") -> {RUST[call.answer]};\n"
    return text


def overlaps(call):
    """The pairs of a call's slices that must not overlap: each that is written, with every other one."""
    slices = [argument for argument in arguments(call) if argument[0] in ("OCTETS", "ROOM")]
    for place, (kind, *slice) in enumerate(slices):
        for other_kind, *other in slices[place + 1 :]:
            if "ROOM" in (kind, other_kind):
                yield slice + other


def filled(begin, words, end):
    """A list of C in lines of at most 100 characters, each below the one before."""
    lines = [begin]
    for place, word in enumerate(words):
        word += end if place == len(words) - 1 else ","
        if len(lines[-1]) + len(word) + 1 > 100:
            lines.append(" " * len(begin) + word)
        else:
            lines[-1] += word if lines[-1].endswith("(") else " " + word
    return "\n".join(lines) + "\n"


def checked():
    """For each call that writes, the form that first refuses an overlap."""
    text = ""
    for call in calls():
        pairs = list(overlaps(call))
        if not pairs:
            continue
        parameters = [f"{kind}{'' if kind.endswith('*') else ' '}{name}" for kind, name in call.parameters]
        tests = " ||\n        ".join(f"klumdray_overlap({', '.join(pair)})" for pair in pairs)
        text += "\n" + filled(f"static inline {call.answer} {call.name}_checked(", parameters, ")")
        text += f"{{\n    if ({tests})\n        return {OVERLAP}u;\n"
        text += filled(f"    return {call.name}(", [name for _, name in call.parameters], ");") + "}\n"
    return text + "\n"


def wrapped(words):
    """Words as a C list in brackets, in lines of at most 100 characters."""
    text = ", ".join(word.replace(" ", "\0") for word in words)
    lines = textwrap.wrap(text, 100, initial_indent="     (", subsequent_indent="      ", break_on_hyphens=False)
    return "\n".join(lines).replace("\0", " ") + ")"


def emulated():
    text = """/*
 * The calls of klumdray.h, each with its parameters, and with its arguments by position, a slice being
 * one. Who includes this file says before by CALL, NUMBER, SIGNED, OCTETS and ROOM what is made of
 * them; SIGNED is a number of 64 bits with a sign. tools/make-surface writes it from the header.
 */
"""
    for call in calls():
        parameters = wrapped([f"{kind}{'' if kind.endswith('*') else ' '}{name}" for kind, name in call.parameters])
        given = wrapped([f"{kind}({', '.join([str(place), *names])})" for place, (kind, *names) in enumerate(arguments(call))])
        text += f"CALL({call.answer}, {call.name},\n{parameters},\n{given})\n"
    return text


# Each file, what stands before the part that is written, the part, and what stands behind it.
PARTS = [
    (EXPORTS, "", surface_crate, ""),
    (SAME, "", same_contracts, ""),
    (HEADER, " * number. A refused call has written nothing.\n *\n", header_table, " *\n"),
    (HEADER, "    static const char *const words[] = {\n", header_words, "    };\n"),
    (HEADER, "/* Written by tools/make-surface from the calls above. */\n", checked, "/* The checked forms end here. */\n"),
    (CONSTANTS, "impl Refusal {\n", constants, "}\n"),
    (CONSTANTS, "const WORDS: &[&str] = &[\n", rust_words, "];\n"),
    (EXTERN, 'extern "C" {\n', extern, "}\n"),
    (EMULATED, "", emulated, ""),
]


def made():
    """Each file with its parts written anew."""
    texts = {}
    for file, before, part, behind in PARTS:
        if not before:
            texts[file] = part()
            continue
        text = texts.get(file) or file.read_text()
        head, found, rest = text.partition(before)
        _, ended, rest = ("\n" + rest).partition("\n" + behind)
        if not found or not ended:
            raise SystemExit(f"{file.relative_to(ROOT)}: no part between `{before.strip()}` and `{behind.strip()}`")
        texts[file] = head + before + part() + behind + rest
    return texts
