"""Copies of crates, in which another text is checked (.ci/wrong, .ci/edits) or commands are run (.ci/documents). A check there begins with what the last
check of the crate here kept (rt all check), so that only what is other there is checked again."""
import os, shutil, subprocess

from editfiles import ROOT

EACH = 4_000_000_000  # bytes of memory that a check may take


def workers():
    """How many checks are run at a time: one for each processor, as far as memory holds them."""
    with open("/proc/meminfo") as file:
        free = next(1024 * int(line.split()[1]) for line in file if line.startswith("MemAvailable:"))
    return max(1, min(len(os.sched_getaffinity(0)), free // EACH))


def linked(folder, to, every=False):
    """Copies a folder that rt made. What was proved gets a second name in place of a copy, for rt puts a new file in such a one's place and writes into
    none; every: so does each file."""

    def copy(one, other):
        if every or one.endswith(".oantt"):
            try:
                return os.link(one, other)
            except OSError:  # of another file system, say
                pass
        return shutil.copy2(one, other)

    shutil.copytree(folder, to, copy_function=copy)


def copy_work(crate, folder):
    """Gives the crate of a copy of the repository what was built and kept of it here."""
    here, there = ROOT / "crates" / crate / "out", folder / "crates" / crate / "out"
    for part in ("rlib", "incremental"):
        if (here / part).is_dir():
            linked(here / part, there / part, every=part == "rlib")


def copy_crate(crate, folder):
    """Copies a crate into a copy of the repository, with what was built and kept of it."""
    for part in ("src", "specs", "proofs"):
        if (ROOT / "crates" / crate / part).is_dir():
            shutil.copytree(ROOT / "crates" / crate / part, folder / "crates" / crate / part)
    copy_work(crate, folder)


def check(folder, crate):
    """Checks a crate of a copy: (status, what is said)."""
    how = {"stdin": subprocess.DEVNULL, "stdout": subprocess.PIPE, "stderr": subprocess.STDOUT, "text": True, "errors": "replace"}
    done = subprocess.run(["rt", "check", "--jobs", "1"], cwd=folder / "crates" / crate, **how)
    return done.returncode, done.stdout
