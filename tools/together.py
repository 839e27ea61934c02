"""Which wrong programs are tried together. An edit costs one check of its crate, however many functions
it makes wrong: each function is proved by itself, from the contracts of those that it calls. So wrong
programs share an edit where none changes a function that another one changes, calls or is called by;
then what the checker says of a function is due to the one program that changes it.

Those that share an edit go on sharing it: the heads `# NAME` in crates/CRATE/must-fail/together_NN.edit
say which they are. A new program joins the first edit that it fits."""

import re

import logs
import sources
from sources import ROOT

HEAD = re.compile(r"^# (\w+)$", re.M)


def homes(functions):
    return {function.home for function in functions}


def touched(edit):
    """The functions that a program changes, and all that these call; None if it has to be tried alone."""
    changed = sources.changed(edit)
    if not changed or any(not is_own(file, changed) for file, _, _ in edit.pairs):
        return None
    before, after = sources.functions(edit.crate), sources.edited(edit)
    called = set()
    for function in before + after:
        if function.home in homes(changed):
            called |= homes(sources.reached(function, before)) | homes(sources.reached(function, after))
    return homes(changed), called


def is_own(file, changed):
    """Whether a file of an edit is code, or the proof of a function that the edit changes."""
    return file.startswith("src/") or any(logs.is_proof_of(file, function.home) for function in changed)


def are_apart(one, other):
    return bool(one and other and not one[0] & other[1] and not other[0] & one[1])


def can_share(group):
    """Whether what the checker says of a function is due to one of these programs alone."""
    known = [touched(edit) for edit in group]
    return all(are_apart(one, other) for at, one in enumerate(known) for other in known[:at])


def fit(edits):
    """Whether the edits can be made one after the other, each `old` text standing once."""
    texts = {}
    for edit in edits:
        for file, old, new in edit.pairs:
            place = ROOT / "crates" / edit.crate / file
            text = texts.get(file) or (place.read_text() if place.is_file() else "")
            if text.count(old) != 1:
                return False
            texts[file] = text.replace(old, new)
    return True


def kept(crate):
    """The wrong programs that share an edit as the tree has it, by the edit's name."""
    programs, found = {edit.name: edit for edit in sources.edits(crate)}, {}
    for file in sorted((ROOT / "crates" / crate / "must-fail").glob("together_*.edit")):
        found[file.stem] = [programs[name] for name in HEAD.findall(file.read_text()) if name in programs]
    return found


def groups(crate):
    """The wrong programs of a crate, those together that are and those that can be."""
    made = kept(crate)
    there = {edit.name for group in made.values() for edit in group}
    for edit in sources.edits(crate):
        if edit.name not in there:
            fitting = (group for group in made.values() if can_share(group + [edit]) and fit(group + [edit]))
            group = next(fitting, None)
            if group is None:
                group = made.setdefault(f"together_{len(made) + 1:02}", [])
            group.append(edit)
    return made


def text_of(group):
    """The edit that makes all wrong programs of a group."""
    return "\n".join(f"# {edit.name}\n{edit.text.strip()}\n" for edit in group)
