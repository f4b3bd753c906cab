#!/usr/bin/env python3
"""What the launcher ./mcplay does while there is no proved program.

Usage: tools/first_run.py build          proves each crate of the program, lowest first, and builds it
       tools/first_run.py quick WORDS..  carries out WORDS without a proof, by `rt try`, and keeps nothing

What happens is told on standard error. Ends with 70 where the toolchain refuses, and 130 where it is stopped.
"""

import os
import re
import signal
import subprocess
import sys
import tempfile
import threading
import time
from pathlib import Path

TOP = Path(__file__).resolve().parent.parent
CRATE = TOP / "crates" / "mcplay"
PROGRAM = CRATE / "out" / "mcplay"

# How many minutes a first build took when it was last measured, by processors; empty where it was not.
MINUTES = {4: 32}

# How long a quick run may take beside its compiling, in seconds.
SECONDS = 600

# The lines that rt try itself adds behind what the program says.
OF_THE_TRIAL = re.compile(r"(interpreter|checked|races|run|the end of the program's standard \w+)[:=]")

FAILED, STOPPED = 70, 130


def say(text):
    print(f"mcplay: {text}", file=sys.stderr, flush=True)


def crates_below(name):
    """Returns the repository's crates on which a crate stands, each behind those below it, and then the crate."""
    below = {}
    for line in (TOP / "crates.txt").read_text(encoding="utf-8").splitlines():
        head, colon, deps = line.split("#")[0].partition(":")
        if colon:
            below[head.split()[0]] = deps.split()
    order = []

    def visit(it):
        if it in below and it not in order:
            for dep in below[it]:
                visit(dep)
            order.append(it)

    visit(name)
    return order


def minutes_gone(since):
    gone = int(time.monotonic() - since) // 60
    return f"{gone} minute{'s' * (gone != 1)} gone"


def stop(child):
    """Ends a command of the toolchain, which ends all that it began."""
    child.send_signal(signal.SIGINT)
    try:
        child.wait(timeout=10)
    except subprocess.TimeoutExpired:
        child.kill()
        child.wait()


def run_telling(words, folder, log, where, since):
    """Runs a command of the toolchain with its lines in a log, and tells each minute where it is."""
    with subprocess.Popen(words, cwd=folder, stdin=subprocess.DEVNULL, stdout=log, stderr=log) as child:
        ended = threading.Event()

        def tell():
            while not ended.wait(60):
                say(f"{where}; {minutes_gone(since)}")

        threading.Thread(target=tell, daemon=True).start()
        try:
            return child.wait()
        except KeyboardInterrupt:
            stop(child)
            raise
        finally:
            ended.set()


def how_long():
    said = [f"{minutes} minutes on {count} processors" for count, minutes in MINUTES.items()]
    return f"it took {' and '.join(said)} last" if said else "it takes many minutes"


def build():
    order, since = crates_below("mcplay"), time.monotonic()
    say(f"there is no proved program yet. Its {len(order)} crates are proved and built now, once; {how_long()}")
    say("for a first look stop this by Ctrl-C, which keeps what is proved, and say ./mcplay --quick run FILE")
    with tempfile.TemporaryFile("w+", errors="replace") as log:
        try:
            for number, name in enumerate(order, 1):
                where = f"crate {number} of {len(order)}, {name}"
                say(f"{where}; {minutes_gone(since)}")
                words = ["rt", "lib"] if name != "mcplay" else ["rt", "run", "--", "--version"]
                if run_telling(words, TOP / "crates" / name, log, where, since):
                    log.seek(0)
                    print(*log.read().splitlines()[-20:], sep="\n", file=sys.stderr)
                    return give_up(f"{name} could not be built")
        except KeyboardInterrupt:
            say("stopped; what is proved so far is kept for the next time")
            PROGRAM.unlink(missing_ok=True)
            return STOPPED
    if not os.access(PROGRAM, os.X_OK):
        return give_up("the toolchain left no program")
    say(f"proved and built; {minutes_gone(since)}")
    return 0


def give_up(why):
    say(why)
    PROGRAM.unlink(missing_ok=True)
    return FAILED


def absolute(words):
    """Returns the words with the names of files from the root on, since a trial runs in a folder of its own."""
    here = os.getcwd()
    return [os.path.join(here, it) if n and it and it[0] != "-" else it for n, it in enumerate(words)]


def quick(words):
    what = "the same program, compiled for this run alone in a minute or two"
    say(f"NOT PROVED: {what}; it prints at most 1 MiB, some 15,000 packets")
    trial = ["rt", "try", "--seconds", str(SECONDS), "--", *absolute(words)]
    pipes = {"stdin": subprocess.DEVNULL, "stdout": subprocess.PIPE, "stderr": subprocess.PIPE}
    with subprocess.Popen(trial, cwd=CRATE, **pipes) as child:
        try:
            text, said = child.communicate()
        except KeyboardInterrupt:
            stop(child)
            say("stopped")
            return STOPPED
    lines = said.decode(errors="replace").splitlines()
    ended = [it for it in map(re.compile(r"run=ended status=(\d+) ").match, lines) if it]
    if not ended:
        return no_answer(lines)
    sys.stdout.buffer.write(text)
    sys.stdout.buffer.flush()
    for line in lines:
        if not OF_THE_TRIAL.match(line):
            print(line, file=sys.stderr)
    return int(ended[-1][1])


def no_answer(lines):
    why = [it for it in map(re.compile(r"checked: (?:no-answer: )?(.*)").match, lines) if it]
    if why:
        say(f"no answer by the quick way: {why[-1][1]}")
        say("a script can ask for less, as 'seek 60', 'demux 50', 'read video 20'; ./mcplay run has no such limit")
    else:
        print(*lines[-20:], sep="\n", file=sys.stderr)
        say("the toolchain could not try the program")
    return FAILED


def main(words):
    # Whoever stops the launcher by another signal stops what it began in the same way.
    for number in (signal.SIGINT, signal.SIGTERM, signal.SIGHUP):
        signal.signal(number, signal.default_int_handler)
    try:
        if words == ["build"]:
            return build()
        if words[:1] == ["quick"]:
            return quick(words[1:])
    except FileNotFoundError as error:
        if error.filename != "rt":
            raise
        say("there is no rt: install the Rattle toolchain and put it on the PATH")
        return FAILED
    print(__doc__, file=sys.stderr)
    return 2


if __name__ == "__main__":
    sys.exit(main(sys.argv[1:]))
