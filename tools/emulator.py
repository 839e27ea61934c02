"""Programs for a target, built and run as tests/board/machines.sh says, and the instructions that QEMU lists
of a run. For tools/measure-targets and tools/count-rows."""

import os
import subprocess
import tempfile

from sources import ROOT

LISTED = ["-singlestep", "-d", "nochain,exec"]
# How tests/board/machines.sh builds and runs for a target, told word by word.
TOLD = """. tools/needed.sh; . tests/board/machines.sh; mkdir -p "$MADE"; ready "$1" || { echo "$1: $reason" >&2; exit 1; }
for part in compiler support behind emulator; do
    declare -n words=$part
    for word in "${words[@]}"; do printf '%s %s\\n' "$part" "$word"; done
done"""


def run(words, **more):
    done = subprocess.run([str(word) for word in words], cwd=ROOT, text=True, stdout=subprocess.PIPE, **more)
    if done.returncode != 0:
        raise SystemExit(f"{' '.join(map(str, words))}: status {done.returncode}\n{done.stdout}")
    return done.stdout


def machine(target):
    """The words that compile a program for a target, those behind the sources, and those that run it."""
    parts = {"compiler": [], "support": [], "behind": [], "emulator": []}
    for line in run(["bash", "-c", TOLD, "bash", target]).splitlines():
        part, _, word = line.partition(" ")
        parts[part].append(word)
    return parts


def carried_out(target, made):
    """What a program says."""
    return run([*machine(target)["emulator"], made], stdin=subprocess.DEVNULL)


def listed(target, made, heard):
    """Runs a program under the emulator, also one that this machine could run by itself: for each instruction
    the function that it is of. What the program says is added to `heard`."""
    emulator = machine(target)["emulator"]
    if not emulator:
        emulator = [f"qemu-{os.uname().machine}"]
        run(["bash", "-c", '. tools/needed.sh; has "$1" || install_packages qemu-user', "bash", *emulator])
    words = [*emulator[:1], *LISTED, *emulator[1:], str(made)]
    with tempfile.TemporaryFile("w+") as said:
        process = subprocess.Popen(words, cwd=ROOT, stdin=subprocess.DEVNULL, stdout=said, stderr=subprocess.PIPE,
                                   text=True, errors="replace")
        for line in process.stderr:
            if line.startswith("Trace"):
                yield line.rstrip("\n").rsplit(" ", 1)[-1]
        status = process.wait()
        said.seek(0)
        heard.extend(said.read().splitlines())
    if status != 0:
        raise SystemExit(f"{' '.join(words)}: status {status}\n" + "\n".join(heard))
