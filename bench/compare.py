"""Runs a proved program and its peers in turn, and compares processor time, peak memory and output. With the word --instructions each comparison also
counts instructions outside the kernel, by valgrind where that is installed; this takes some minutes."""
import os
import re
import shutil
import statistics
import subprocess
import sys
import tempfile

TOP = os.path.join(os.path.dirname(os.path.abspath(__file__)), "..")
RUNS = 5


class Runs:
    """The processor seconds and the greatest resident memory in KiB of the runs of one call."""

    def __init__(self):
        self.seconds = []
        self.memory = 0
        self.instructions = None

    def add(self, seconds, memory):
        self.seconds.append(seconds)
        self.memory = max(self.memory, memory)

    def count(self, memory, executed):
        """Takes the memory and the instructions of a run of its own, where they were counted."""
        self.memory = self.memory if memory is None else memory
        self.instructions = executed

    def take_off(self, seconds):
        """Leaves the time of the work behind a first part that takes so long."""
        self.seconds = [each - seconds for each in self.seconds]

    def least(self):
        return min(self.seconds)

    def row(self, name):
        """The least and the median time, the memory, and the millions of instructions where they were counted."""
        times = "%.3f s (median %.3f)" % (self.least(), statistics.median(self.seconds))
        counted = "" if self.instructions is None else "  %.0f million instructions" % (self.instructions / 1e6)
        return "%-18s  %s  %d KiB%s" % (name, times, self.memory, counted)

    def ratio(self, peer):
        """How many times the peer's time, memory and instructions these are."""
        counted = ""
        if self.instructions is not None and peer.instructions is not None:
            counted = "  %.2f of the instructions" % (self.instructions / peer.instructions)
        return "%.2f of the time  %.2f of the memory%s" % (self.least() / peer.least(), self.memory / peer.memory, counted)


def measured(words, source, target, folder=None):
    """Processor seconds, and the greatest resident memory in KiB."""
    with open(source, "rb") as stdin, open(target, "wb") as stdout:
        child = subprocess.Popen(words, stdin=stdin, stdout=stdout, cwd=folder)
        _, status, usage = os.wait4(child.pid, 0)
    if status != 0:
        sys.exit("%s ended with status %d" % (words[0], status))
    return usage.ru_utime + usage.ru_stime, usage.ru_maxrss


def peak(words, source, folder=None):
    """The greatest resident memory of one run in KiB, or None without GNU time. What `measured` tells is never below this program's own memory."""
    timer = shutil.which("time")
    if timer is None:
        return None
    call = [timer, "-f", "%M", "-o", "/dev/stderr"] + words
    with open(source, "rb") as stdin:
        done = subprocess.run(call, stdin=stdin, stdout=subprocess.DEVNULL, stderr=subprocess.PIPE, cwd=folder, check=True)
    return int(done.stderr.split()[-1])


def instructions(words, source, folder=None):
    """The instructions of one run, or None where they aren't asked for or can't be counted."""
    if "--instructions" not in sys.argv or shutil.which("valgrind") is None:
        return None
    call = ["valgrind", "--tool=callgrind", "--callgrind-out-file=/dev/null"] + words
    with open(source, "rb") as stdin:
        done = subprocess.run(call, stdin=stdin, stdout=subprocess.DEVNULL, stderr=subprocess.PIPE, cwd=folder, check=True)
    found = re.search(rb"Collected : (\d+)", done.stderr)
    return None if found is None else int(found.group(1))


def same(a, b):
    with open(a, "rb") as x, open(b, "rb") as y:
        return x.read() == y.read()


def program_of(crate):
    """The path of the crate's built program; None, and a line that says so, where it or rustc is missing."""
    program = os.path.abspath(os.path.join(TOP, "crates", crate, "out", crate))
    if shutil.which("rustc") is None or not os.path.exists(program):
        print("skipped: rustc is missing, or %s isn't built (rt run in crates/%s)" % (program, crate))
        return None
    return program


def build_plain(peer, target):
    """Builds the peer as one unit, as the proved program is: LLVM then sees all of it at once."""
    subprocess.run(["rustc", "--edition", "2021", "-O", "-C", "codegen-units=1", "-o", target, peer], check=True)


def print_busy():
    """Says how busy the machine is."""
    print("load average %.1f on %d processors" % (os.getloadavg()[0], os.cpu_count()))


def compare(crate, words, peer, peer_words, write_input=None, before=None):
    """Compares the program of the crate with a plain Rust file, the least of five runs each. Skips where a tool is missing.

    `write_input` writes what both read from standard input to the path that it is given. `before` are words of a run that does only the first part of the work:
    its least time is taken off.
    """
    program = program_of(crate)
    if program is None:
        return
    with tempfile.TemporaryDirectory() as folder:
        at = lambda name: os.path.join(folder, name)
        build_plain(peer, at("plain"))
        open(at("input"), "wb").close()
        if write_input is not None:
            write_input(at("input"))
        programs = {"proved": [program] + words, "plain": [at("plain")] + peer_words}
        runs = {name: Runs() for name in programs}
        first = {name: Runs() for name in programs}
        for _ in range(RUNS):
            for name, call in programs.items():
                runs[name].add(*measured(call, at("input"), at(name + ".out")))
                if before is not None:
                    first[name].add(*measured([call[0]] + before, at("input"), at(name + ".before")))
        for name, call in programs.items():
            runs[name].count(peak(call, at("input")), instructions(call, at("input")))
        if not same(at("proved.out"), at("plain.out")):
            sys.exit("the two print different text")
    if before is not None:
        for name, of in runs.items():
            of.take_off(first[name].least())
    for name, of in runs.items():
        print(of.row(name))
    print("proved to plain: " + runs["proved"].ratio(runs["plain"]))
    print_busy()
