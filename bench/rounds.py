#!/usr/bin/env python3
"""Runs some commands in turn, as often as is asked for, and prints of each the least and the median
of its seconds, the median as a ratio to that of the first command, and its peak memory. Taking turns
lets all of them share what else the machine does meanwhile.

Usage: bench/rounds.py ROUNDS NAME COMMAND [NAME COMMAND]..., where COMMAND is as a shell reads it.
"""
import os
import shlex
import statistics
import subprocess
import sys
import time


def run(words):
    """Returns the seconds that a command takes, and its greatest resident memory in MB."""
    begin = time.perf_counter()
    quiet = subprocess.DEVNULL
    child = subprocess.Popen(words, stdin=quiet, stdout=quiet, stderr=quiet)
    _, status, used = os.wait4(child.pid, 0)
    spent = time.perf_counter() - begin
    child.returncode = os.waitstatus_to_exitcode(status)
    if child.returncode:
        sys.exit(f"status {child.returncode}: {shlex.join(words)}")
    return spent, used.ru_maxrss / 1024


def main():
    rounds = int(sys.argv[1])
    names = sys.argv[2::2]
    commands = [shlex.split(words) for words in sys.argv[3::2]]
    runs = [[] for _ in names]
    for _ in range(rounds):
        for words, done in zip(commands, runs):
            done.append(run(words))
    base = statistics.median(spent for spent, _ in runs[0])
    for name, done in zip(names, runs):
        seconds = [spent for spent, _ in done]
        median = statistics.median(seconds)
        memory = max(memory for _, memory in done)
        print(f"{name:34} {min(seconds):8.3f} s {median:8.3f} s {median / base:6.1f} x {memory:8.1f} MB")


main()
