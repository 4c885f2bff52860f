"""What the trials of the front share: an installation in a folder of its own, calls with and without the drop-in first
on PATH, and a count of what differs."""

import functools
import os
import re
import shutil
import signal
import subprocess
import sys
import time
from pathlib import Path

TOP = Path(__file__).resolve().parents[2]
# Where the tests of pages and the tools are.
sys.path[:0] = [str(TOP), str(TOP / "tools")]
PROGRAM, DROP_IN = TOP / "bin" / "bedtools", TOP / "bin" / "drop-in"
# Who took a command line, as DUNEKETTLE_TELL says it.
TOLD = re.compile(r"^dunekettle: (.*?) takes (\w*)", re.MULTILINE)
# The tools that the front calls, and those of the trials.
TOOLS = ("sh", "bash", "awk", "cat", "cmp", "cut", "dash", "df", "env", "grep", "gzip", "head", "mkfifo", "mktemp",
         "od", "printf", "readlink", "rm", "samtools", "sed", "sleep", "sort", "tail", "tr", "uniq", "wc")


def original():
    """The bedtools 2.30.0 on PATH, or None and a word."""
    found = shutil.which("bedtools")
    said = subprocess.run([found, "--version"], stdout=subprocess.PIPE, text=True, check=False).stdout if found else ""
    if said.strip() != "bedtools v2.30.0":
        print("no bedtools 2.30.0 on PATH: what needs it wasn't tried")
        return None
    return found


def install(prefix):
    """Installs both programs and the front into a folder, as `make install` does, without the pages."""
    subprocess.run([TOP / "packaging" / "install.sh", prefix, prefix, "dunekettle-bedtools", PROGRAM, DROP_IN],
                   check=True)
    return prefix


def drop_in(prefix):
    """The folder that goes first on PATH."""
    return prefix / "lib" / "dunekettle" / "bin"


def tools_alone(folder):
    """A folder with the usual tools, and without bedtools."""
    folder.mkdir()
    for tool in TOOLS:
        found = shutil.which(tool)
        if found:
            (folder / tool).symlink_to(found)
    return folder


def environment(*first, **more):
    """The environment of a call: folders that come first on PATH, and further variables."""
    path = os.pathsep.join([*map(str, first), os.environ["PATH"]])
    plain = {name: value for name, value in os.environ.items() if not name.startswith("DUNEKETTLE_")}
    return {**plain, "PATH": path, **more}


def looking(*first, **more):
    """The same of a call whose files the drop-in looks at, however small they are."""
    return environment(*first, **{"DUNEKETTLE_SMALL": "0", **more})


def with_path(*folders, **more):
    """The same with these folders on PATH, and no others."""
    return {**looking(**more), "PATH": os.pathsep.join(map(str, folders))}


def fake(folder, name, script):
    """A folder with a tool of ours: a script of sh."""
    folder.mkdir(exist_ok=True)
    (folder / name).write_text(f"#!/bin/sh\n{script}\n", encoding="utf-8")
    (folder / name).chmod(0o755)
    return folder


# What a shell starts in the background, or by nohup, ignores some signals, and so would what is tried.
for ignored in (signal.SIGHUP, signal.SIGINT, signal.SIGQUIT, signal.SIGTERM):
    if signal.getsignal(ignored) == signal.SIG_IGN:
        signal.signal(ignored, signal.SIG_DFL)
# A small piece of work, and the seconds that it takes where nothing else is done.
WORK, IDLE = "i=0; while [ $i -lt 30000 ]; do i=$((i + 1)); done", 0.05
# How much slower a machine may be on which bounds of time still say something.
TOO_BUSY = 8


def slowness():
    """How many times longer that work takes now."""
    begun = time.monotonic()
    subprocess.run(["dash" if shutil.which("dash") else "sh", "-c", WORK], check=True)
    return max(1, (time.monotonic() - begun) / IDLE)


@functools.cache
def is_busy(what):
    """Whether the machine is too busy for a trial that goes by the clock; then it is passed over with a word."""
    slower = slowness()
    if slower > TOO_BUSY:
        print(f"this machine is busy, {slower:.0f} times slower than alone: {what} passed over")
    return slower > TOO_BUSY


def call(words, folder, env, **how):
    """Runs a command, and gives its output, what it said, and its status. One that has no answer after two minutes, or
    after as many times more as the machine is slower, is ended with a word."""
    how = {"stdin": subprocess.DEVNULL, "timeout": 120, **how}
    patience, given, begun = how.pop("timeout"), how.pop("input", None), time.monotonic()
    how["stdin"] = how["stdin"] if given is None else subprocess.PIPE
    with subprocess.Popen([*map(os.fspath, words)], cwd=folder, env=env, stdout=subprocess.PIPE, stderr=subprocess.PIPE,
                          **how) as child:
        while True:
            try:
                output, said = child.communicate(given, timeout=patience)
                return output, said.decode(errors="replace"), child.returncode
            except subprocess.TimeoutExpired as late:
                given, took, slower = None, time.monotonic() - begun, slowness()
                if took > patience * slower:
                    child.kill()
                    print(f"no answer after {took:.0f} seconds, on a machine that is {slower:.0f} times slower than "
                          f"alone: {' '.join(map(str, words))[:300]}")
                    return late.output or b"", "no answer", child.wait()


def shell(script, folder, env, **how):
    """The same of a script of sh."""
    return call(["sh", "-c", script], folder, env, **how)


class Count:
    """Counts cases, and shows those that differ."""

    def __init__(self, what):
        self.what, self.cases, self.wrong = what, 0, 0

    def expect(self, name, wanted, found):
        """One case."""
        self.cases += 1
        if wanted != found:
            self.wrong += 1
            print(f"{self.what}: {name}\n  wanted {wanted!r:.600}\n  found  {found!r:.600}")

    def close(self):
        """Says how many there were, and gives how many differ."""
        print(f"{self.what}: {self.cases} cases, {self.wrong} of them differ")
        return self.wrong
