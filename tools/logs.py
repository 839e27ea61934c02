"""What the checker's logs say of single functions."""

import re

import sources

# An error, with its place in the crate and the lines that carry it on; and what is said of a goal that has no proof.
ERROR = re.compile(r"^(?:\./)?([\w./+-]+?):\d+:\d+: error(?:\[\S+\])?: (.*(?:\n  .*)*)", re.M)
OPEN = re.compile(r"^note: (?:\./)?(src/\S+?):(\d+):\d+: (it is not proved that .*)$", re.M)
VERDICT = re.compile(r"^fn (\S+): (.*)$", re.M)


def verdicts(log):
    """What is said of each function: `proved`, or why not."""
    return dict(VERDICT.findall(log))


def ends(crate, files):
    """Where the functions of a crate end: the file, the line, and the way to the function."""
    texts = {path[len("src/") : -len(".rt")]: text for path, text in files.items() if path.startswith("src/")}
    for function in sources.functions_in(crate, texts):
        behind = sources.without_comments(texts[function.file])[: function.place[1]]
        yield f"src/{function.file}.rt", behind.count("\n") + 1, function.home


def complaints(log, crate, files):
    """What does not follow from another error: the function's place, and the words; `files` has the texts of the crate that was checked."""
    for file, said in ERROR.findall(log):
        if "was not admitted" not in said.split("\n")[0] and file in files:
            yield file, said
    places = list(ends(crate, files))
    for file, line, said in OPEN.findall(log):
        # The place is the function's first line, which may be an attribute, or a line inside.
        _, home = min((last, home) for other, last, home in places if other == file and int(line) <= last)
        yield "/".join(("proofs", *home, "")), said


def is_proof_of(file, home):
    """Functions that call one another have one proof, in a folder with all their names: +a+b."""
    parts = tuple(file.split("/"))[1:-1]
    return file.startswith("proofs/") and parts[:-1] == home[:-1] and home[-1] in parts[-1:] + tuple("".join(parts[-1:]).split("+"))


def complaints_of(home, log, crate, files):
    """The words on one function."""
    return [said for file, said in complaints(log, crate, files) if is_proof_of(file, home)]
