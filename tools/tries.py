"""Checks of a crate with other texts, each in a repository of its own, whose other crates are those that are built
here; so several run side by side, and each has only its crate to check. A check begins with what one of the crate as
it stands has left, and its log is kept below target/ as long as nothing that it read has changed. The repositories
themselves are temporary and outside of this one, where `rt ci` refuses every crate that it does not know."""

import concurrent.futures
import functools
import hashlib
import os
import pathlib
import shutil
import subprocess
import tempfile

import sources
from sources import ROOT

PARTS = ("src", "specs", "proofs")


@functools.cache
def below(crate):
    """The crates of this repository that a crate uses, by its line of crates.txt and the lines of those, lowest first."""
    found, todo = set(), [crate]
    while todo:
        new = set(lines()[todo.pop()].partition(":")[2].split()) & lines().keys() - found
        found |= new
        todo += new
    return [name for name in lines() if name in found]


@functools.cache
def lines():
    """The lines of crates.txt, by the crate's name, lowest first."""
    found = {}
    for line in (ROOT / "crates.txt").read_text().split("\n"):
        name, colon, _ = line.split("#")[0].partition(":")
        if colon:
            found[name.split()[0]] = line.split("#")[0].strip()
    return found


@functools.cache
def texts(crate):
    """The files of a crate that a check reads, by their path in it."""
    base = ROOT / "crates" / crate
    files = [file for part in PARTS for file in sorted(base.glob(f"{part}/**/*")) if file.is_file()]
    return {file.relative_to(base).as_posix(): file.read_text() for file in files}


@functools.cache
def base_sum(crate):
    """A sum of what a check of a crate reads beside its own files."""
    kit = subprocess.run(["rt", "version"], stdout=subprocess.PIPE, text=True, check=True).stdout
    return hashlib.sha256(repr([kit, lines()[crate], *[(name, texts(name)) for name in below(crate)]]).encode()).hexdigest()


def sum_of(crate, files):
    return hashlib.sha256(repr([base_sum(crate), sorted(files.items())]).encode()).hexdigest()


def link(one, other):
    """Gives a file that no check writes into a second name."""
    try:
        os.link(one, other)
    except OSError:
        shutil.copy2(one, other)


def lay_out(folder, crate, files, kept):
    """A repository with one crate of these files, over what a check of it kept, and the crates that it uses."""
    for name in below(crate):
        for part in (*PARTS, "out/rlib"):
            if (ROOT / "crates" / name / part).is_dir():
                shutil.copytree(ROOT / "crates" / name / part, folder / "crates" / name / part, copy_function=link)
    for path, text in files.items():
        file = folder / "crates" / crate / path
        file.parent.mkdir(parents=True, exist_ok=True)
        file.write_text(text)
    if kept.is_dir():
        shutil.copytree(kept, folder / "crates" / crate / "out" / "incremental", copy_function=link)
    (folder / "crates.txt").write_text("".join(f"{lines()[name]}\n" for name in [*below(crate), crate]))
    if (ROOT / "HANDLES").is_file():
        shutil.copy2(ROOT / "HANDLES", folder)
    # The top of a repository, so that rt looks no further up.
    (folder / ".git").mkdir()


def check(folder, crate, files, kept, left=None):
    """The log of a check of a crate with these files: that which an earlier check left, or a new one's; `left`
    is where the check's work goes, if anywhere."""
    log, stamp, sum = folder / "log", folder / "sum", sum_of(crate, files)
    if not (log.is_file() and stamp.is_file() and stamp.read_text() == sum):
        with tempfile.TemporaryDirectory(prefix="klumdray-") as made:
            work = pathlib.Path(made)
            lay_out(work, crate, files, kept)
            words = ["rt", "check", "--jobs", "1"]
            done = subprocess.run(words, cwd=work / "crates" / crate, stdout=subprocess.PIPE, stderr=subprocess.STDOUT, text=True, errors="replace")
            shutil.rmtree(folder, ignore_errors=True)
            folder.mkdir(parents=True)
            if left and (work / "crates" / crate / "out" / "incremental").is_dir():
                shutil.move(work / "crates" / crate / "out" / "incremental", left)
        log.write_text(f"{done.stdout}\nstatus={done.returncode}\n")
        if done.returncode in (0, 1):
            stamp.write_text(sum)
    return log.read_text()


def seed(crate):
    """Where a check of a crate as it stands leaves its work; None if it is not proved."""
    folder = ROOT / "target" / "seeds" / crate
    kept = folder / "incremental"
    log = check(folder, crate, texts(crate), ROOT / "crates" / crate / "out" / "incremental", kept)
    return kept if "\nstatus=0\n" in log else None


def build(crates):
    """Builds the libraries below these crates; the names of those that do not get built."""
    used = {name for crate in crates for name in below(crate)}
    return [name for name in lines() if name in used and subprocess.run(["rt", "lib"], cwd=ROOT / "crates" / name, stdout=subprocess.DEVNULL).returncode]


def jobs():
    return int(os.environ.get("RT_JOBS") or os.cpu_count() or 1)


def all_of(wanted):
    """The logs of these checks, by their folders; `wanted` maps a folder to a crate and its files. A crate
    that is not proved as it stands has none."""
    crates = list(dict.fromkeys(crate for crate, _ in wanted.values()))
    failed = set(build(crates))
    crates = [crate for crate in crates if not failed & {*below(crate)}]
    found = {}

    def one(folder, seeds):
        crate, files = wanted[folder]
        if seeds.result():
            found[folder] = check(folder, crate, files, seeds.result())

    with concurrent.futures.ThreadPoolExecutor(jobs()) as pool:
        seeds = {crate: pool.submit(seed, crate) for crate in crates}
        done = [pool.submit(one, folder, seeds[crate]) for folder, (crate, _) in wanted.items() if crate in seeds]
        for it in done:
            it.result()
    return found
