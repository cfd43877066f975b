"""Times commands that take turns, for the benchmarks beside this file."""

import os
import shlex
import subprocess
import sys
import time


def run(command, path, errors=None):
    """The seconds that a command takes on a file, those of the processor, and its peak memory in KiB."""
    with open(path, "rb") as source:
        begin = time.perf_counter()
        child = subprocess.Popen(command, stdin=source, stdout=subprocess.DEVNULL, stderr=errors)
        _, status, usage = os.wait4(child.pid, 0)
        seconds = time.perf_counter() - begin
    if status != 0:
        sys.exit(f"{command}: status {status}")
    return seconds, usage.ru_utime + usage.ru_stime, usage.ru_maxrss


def through_pipes(command, path, to=os.devnull, errors=None):
    """The seconds that a command takes which gets a file by a pipe, and whose output goes through a pipe into another file, until all
    has ended; and those of its own processor."""
    with open(path, "rb") as source, open(to, "wb") as out:
        begin = time.perf_counter()
        giver = subprocess.Popen(["cat"], stdin=source, stdout=subprocess.PIPE)
        child = subprocess.Popen(command, stdin=giver.stdout, stdout=subprocess.PIPE, stderr=errors)
        taker = subprocess.Popen(["cat"], stdin=child.stdout, stdout=out)
        giver.stdout.close()
        child.stdout.close()
        _, status, usage = os.wait4(child.pid, 0)
        taker.wait()
        seconds = time.perf_counter() - begin
        giver.wait()
    if status != 0:
        sys.exit(f"{command}: status {status}")
    return seconds, usage.ru_utime + usage.ru_stime


def peak(command, errors=None):
    """The peak memory of a command in KiB, by the last of the looks at it, a thousand a second."""
    child = subprocess.Popen(command, stdin=subprocess.DEVNULL, stdout=subprocess.DEVNULL, stderr=errors)
    most = 0
    while child.poll() is None:
        try:
            with open(f"/proc/{child.pid}/status", encoding="ascii") as status:
                found = [line.split()[1] for line in status if line.startswith("VmHWM:")]
        except OSError:
            found = []
        most = int(found[0]) if found else most
        time.sleep(0.001)
    if child.returncode != 0:
        sys.exit(f"{command}: status {child.returncode}")
    return most


def least(commands, runs):
    """The least times of commands, each on its own file: by name, the elapsed seconds, and those of the processor.
    And by name the peak memory in octets."""
    elapsed = dict.fromkeys(commands, float("inf"))
    processor = dict.fromkeys(commands, float("inf"))
    memory = dict.fromkeys(commands, 0)
    for _ in range(runs):
        for name, (command, path) in commands.items():
            seconds, busy, peak = run(command, path)
            elapsed[name] = min(elapsed[name], seconds)
            processor[name] = min(processor[name], busy)
            memory[name] = max(memory[name], peak * 1024)
    return elapsed, processor, memory


def compare(program, others, path, runs):
    """Prints the least times of a program and of others, by name, and their ratios. Answers its peak memory in octets."""
    commands = {name: (command, path) for name, command in {**others, "mdbox": program}.items()}
    elapsed, processor, memory = least(commands, runs)
    for name in commands:
        print(f"{name:15} {elapsed[name] * 1000:.1f} ms, processor {processor[name] * 1000:.1f} ms")
    for name in others:
        ratios = elapsed["mdbox"] / elapsed[name], processor["mdbox"] / processor[name]
        print(f"{'mdbox / ' + name:15} {ratios[0]:.2f}, processor {ratios[1]:.2f}")
    return memory["mdbox"]


def cat(path):
    """The command that reads a file and gives it to another process."""
    return ["sh", "-c", f"cat {path} | cat >/dev/null"]


def piped(command):
    """The same command, whose output another process reads: what is compared with `cat` or with one another goes the same way."""
    return ["sh", "-c", f"{shlex.join(command)} | cat >/dev/null"]


def arguments(program="mdbox"):
    """The program and the number of runs: [PROGRAM] [RUNS]."""
    program = os.path.abspath(sys.argv[1] if len(sys.argv) > 1 else program)
    return program, int(sys.argv[2]) if len(sys.argv) > 2 else 7
