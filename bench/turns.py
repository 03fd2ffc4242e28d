#!/usr/bin/env python3
"""The processor time of commands on one input, by turns: turns.py RUNS INPUT COMMAND..

A command is one argument, its words divided by spaces. A line for each: the median of its runs in ms, user and system
together, process start included. What the commands write goes nowhere."""
import os
import subprocess
import sys
from typing import List


def run(words: List[str], path: str) -> float:
    with open(path, "rb") as source:
        child = subprocess.Popen(words, stdin=source, stdout=subprocess.DEVNULL, stderr=subprocess.DEVNULL)
        _, status, used = os.wait4(child.pid, 0)
        child.returncode = os.waitstatus_to_exitcode(status)
    if child.returncode != 0:
        sys.exit(f"status {child.returncode}: {' '.join(words)}")
    return 1000 * float(used.ru_utime + used.ru_stime)


runs, path, commands = int(sys.argv[1]), sys.argv[2], [command.split() for command in sys.argv[3:]]
times: List[List[float]] = [[] for _ in commands]
for _ in range(runs):
    for at, words in enumerate(commands):
        times[at].append(run(words, path))
for taken in times:
    print(f"{sorted(taken)[runs // 2]:.3f}")
