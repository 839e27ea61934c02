"""What the checks in tools/ read of the crates: functions with their contracts, and wrong programs."""

import functools
import pathlib
import re
from collections import namedtuple

ROOT = pathlib.Path(__file__).resolve().parent.parent

# `path` is the way to the function as other crates write it, in code and in proofs; `home` is that to where it
# is declared, by which its own proof lies and the checker speaks of it. They differ where `pub use` hands it
# out. `contract` is a dict of its clauses, `file` where it stands and `place` from where to where, comments
# left out.
Function = namedtuple("Function", "crate path home public contract body uses file place")
Edit = namedtuple("Edit", "crate name file text pairs")

# The word of a clause, and its name if it has one.
CLAUSE = re.compile(r"\b(requires|ensures)(?:\s+\w+)?\s*$")
FN = re.compile(r'\b(pub(?:\([^)]*\))?\s+)?(?:extern\s+"C"\s+)?fn\s+(\w+)')
IMPL = re.compile(r"^impl(?:<[^>]*>)?\s+(\w+)(?:<[^>]*>)?\s*\{", re.M)
# What stands at the margin before an item.
SEEN = r"^(?:#\[[^\]]*\]\s*)*(pub\s+)?(?:pub\([^)]*\)\s+)?"
MOD = re.compile(SEEN + r"mod\s+(\w+)\s*(;|\{)", re.M)
ITEM = re.compile(SEEN + r'(?:extern\s+"C"\s+)?(?:fn|struct|enum|mod)\s+(\w+)', re.M)
BROUGHT = re.compile(SEEN + r"use\s+([^;]+);", re.M)
# The innermost braces of a `use`, with the way before them.
BRACES = re.compile(r"([\w:]*)\{([^{}]*)\}")
# The second part of a wrong program's head.
SHOWN = re.compile(r"^# on (\S.*): (\S.*), not (\S.*)$", re.M)
USE = re.compile(r"^ghost use ([^;{]+)\.\{([^}]*)\};", re.M)


def crates():
    """The crates of crates.txt, in its order, that are libraries."""
    names = []
    for line in (ROOT / "crates.txt").read_text().split("\n"):
        name = line.split("#")[0].partition(":")[0].strip()
        if name and (ROOT / "crates" / name / "src" / "lib.rt").is_file():
            names.append(name)
    return names


def with_edits():
    """The libraries, and the crate for C, whose source tools/make-surface writes: it has wrong programs, and no
    contract of its own."""
    return crates() + ["klumdray_c"]


def without_comments(text):
    return re.sub(r"//[^\n]*|/\*.*?\*/", "", text, flags=re.S)


def closing(text, at):
    """The index behind the brace that closes the one at `at`."""
    depth = 0
    for index in range(at, len(text)):
        depth += (text[index] == "{") - (text[index] == "}")
        if depth == 0:
            return index + 1
    raise ValueError("a brace is not closed")


def parts(text, at):
    """The clauses of a function and its body, from the first brace behind `at` on: word, begin, end."""
    while True:
        begin = text.index("{", at)
        end = closing(text, begin)
        clause = CLAUSE.search(text[at:begin])
        if not clause:
            yield "", begin, end
            return
        yield clause[1], begin, end
        at = end


def clauses_and_body(text, at):
    """What the clauses of each word say, those of one word one after the other, and the body."""
    inside = {}
    for word, begin, end in parts(text, at):
        inside.setdefault(word, []).append(" ".join(text[begin + 1 : end - 1].split()))
    inside = {word: ", ".join(said) for word, said in inside.items()}
    return inside, inside.pop("")


def imports(text):
    """What each name of a `ghost use` stands for: (module, name there)."""
    names = {}
    for module, inside in USE.findall(text):
        for item in inside.split(","):
            there, _, here = item.strip().partition(" as ")
            names[here.strip() or there] = (module, there)
    return names


def opened(tree):
    """What a `use` names, its braces opened: the way to each, and its name here."""
    tree = re.sub(r"\s*(::|[{},])\s*", r"\1", tree.strip())
    while BRACES.search(tree):
        tree = BRACES.sub(lambda m: ",".join(m[1] + item for item in m[2].split(",") if item), tree)
    for item in filter(None, tree.split(",")):
        way, _, here = item.removesuffix("::self").replace("::self as ", " as ").partition(" as ")
        yield tuple(way.split("::")), here.strip() or way.split("::")[-1]


class Names:
    """What the names of a crate's modules stand for; `texts` maps the home of each module to its text."""

    def __init__(self, texts):
        self.declared, self.brought = {}, {}
        for home, text in texts.items():
            for seen, name in ITEM.findall(text):
                self.declared[home + (name,)] = bool(seen)
            for seen, tree in BROUGHT.findall(text):
                for way, name in opened(tree):
                    self.brought[home + (name,)] = (bool(seen), way)

    def home_of(self, module, way):
        """Where a thing is declared to which a module writes this way; None where that is in another crate."""
        at = module
        for index, part in enumerate(way):
            _, through = self.brought.get(at + (part,), (False, way))
            if part in ("crate", "self", "super"):
                at = {"crate": (), "self": at, "super": at[:-1]}[part]
            elif at + (part,) in self.declared:
                at += (part,)
            elif through != way:
                at = self.home_of(at, through)
            elif index == 0:
                return None
            else:
                raise ValueError(f"`{'::'.join(way)}`: `{part}` is not known to this script")
            if at is None:
                return None
        return at

    def handed_out(self, module):
        """The names that a module hands out, and where each thing is declared."""
        for there, seen in self.declared.items():
            if seen and there[:-1] == module:
                yield there[-1], there
        for here, (seen, way) in self.brought.items():
            there = self.home_of(module, way) if seen and here[:-1] == module else None
            if there is not None:
                yield here[-1], there

    def paths(self):
        """The shortest way to each thing that another crate can name, by the thing's home."""
        found, todo = {}, [((), ())]
        while todo:
            home, path = todo.pop(0)
            for name, there in self.handed_out(home):
                if there not in found:
                    found[there] = path + (name,)
                    todo.append((there, found[there]))
        return found


def modules_in(crate, files, name="lib", home=()):
    """A module and those that it declares: the home of each, its file and its text without comments."""
    text = without_comments(files[name])
    yield home, name, text
    for match in MOD.finditer(text):
        if match.group(3) == "{":
            raise ValueError(f"{crate}/src/{name}.rt: an inline `mod` is not known to this script")
        yield from modules_in(crate, files, match.group(2), home + (match.group(2),))


def functions_in(crate, files):
    """The functions of a crate; `files` maps names to texts."""
    modules = list(modules_in(crate, files))
    names = Names({home: text for home, _, text in modules})
    paths = names.paths()
    for module, file, text in modules:
        methods = [(m.start(), closing(text, m.end() - 1), m.group(1)) for m in IMPL.finditer(text)]
        for match in FN.finditer(text):
            kind = next((t for begin, end, t in methods if begin < match.start() < end), None)
            above = names.home_of(module, (kind,)) if kind else module
            home = above + (match.group(2),)
            path = paths.get(home)
            if kind and above in paths and (match.group(1) or "").strip() == "pub":
                path = paths[above] + home[-1:]
            contract, body = clauses_and_body(text, match.end())
            place = (match.start(), [end for _, _, end in parts(text, match.end())][-1])
            yield Function(crate, path or home, home, path is not None, contract, body, imports(text), file, place)


def sources(crate):
    return {file.stem: file.read_text() for file in (ROOT / "crates" / crate / "src").glob("*.rt")}


@functools.cache
def functions(crate):
    return list(functions_in(crate, sources(crate)))


@functools.cache
def edits(crate=None):
    found = []
    for file in sorted(ROOT.glob(f"crates/{crate or '*'}/wrong-programs/*.edit")):
        text = file.read_text()
        found.append(Edit(file.parents[1].name, file.stem, file, text, list(pairs(text))))
    return found


def pairs(text):
    file, old = None, None
    for line in text.split("\n"):
        kind, _, rest = line.partition(":")
        rest = rest.removeprefix(" ")
        if kind == "file":
            file = rest
        elif kind == "old":
            old = rest
        elif kind == "new":
            yield file, old, rest


def edited_sources(edit):
    files = sources(edit.crate)
    for file, old, new in edit.pairs:
        if file.startswith("src/"):
            name = pathlib.Path(file).stem
            files[name] = files.get(name, "").replace(old, new)
    return files


def edited(edit):
    """The functions of the crate as the edit makes them."""
    return list(functions_in(edit.crate, edited_sources(edit)))


CHANGED = {}


def changed(edit):
    """The functions whose code an edit changes; None where it changes a statement of the crate."""
    if edit.file not in CHANGED:
        CHANGED[edit.file] = find_changed(edit)
    return CHANGED[edit.file]


def find_changed(edit):
    if any(file.startswith("specs/") for file, _, _ in edit.pairs):
        return None
    before, after = functions(edit.crate), {f.home: f for f in edited(edit)}
    for f in before:
        g = after.get(f.home)
        if not g or f.contract != g.contract or not f.uses.items() <= g.uses.items():
            return None
    return [f for f in before if f.body != after[f.home].body]


def reached(function, others):
    """The functions of its own crate that a function calls, itself among them."""
    found, todo = [], [function]
    while todo:
        caller = todo.pop()
        if caller in found:
            continue
        found.append(caller)
        called = set(re.findall(r"(?:(?:crate|self|super)::)?((?:\w+::)*\w+)\s*\(", caller.body))
        names = {tuple(name.removeprefix("crate::").split("::")) for name in called}
        todo += [f for f in others if any(name in (f.home[-len(name) :], f.path[-len(name) :]) for name in names)]
    return found


def called(function):
    """What a function's name is in the names of edits: at the C surface the names go without the crate's."""
    return function.path[-1].removeprefix(f"{function.crate}_")


def named_for(edit):
    """The function that an edit is named for: the longest name that the edit's begins with; of two with
    one name that which the edit changes. None where there is none."""
    fitting = [f for f in functions(edit.crate) if edit.name.startswith(called(f) + "_")]
    longest = max((len(called(f)) for f in fitting), default=0)
    fitting = [f for f in fitting if len(called(f)) == longest]
    own = {f.home for f in changed(edit) or []}
    return next((f for f in fitting if f.home in own), fitting[0] if fitting else None)
