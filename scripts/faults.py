#!/usr/bin/env python3
"""Kills loads, and refuses the memory of runs, and looks at what is left. It takes some minutes, and is no part of the gate.

    scripts/faults.py PROGRAM [--lines N] [--moments N] [--only kills|memory]

PROGRAM is the built program, crates/sigvhal/out/sigvhal.

Kills: a `load` of N lines, 200,000 where nothing is said, over four shards is killed at so many moments, 200 where nothing is said: half of them spread over its whole time, and half over the time
in which it writes files. Each of the four files that is left has to begin the one of a load that ended, and Schema.txt may have bytes only where the others are whole. Where it is whole, `scan` and
`get` answer as over the table of a load that ended, and else both say `error: unfinished`. Where any file is left, the next `load` says `error: exists`; where none is, it loads. None of these
changes what is left.

Memory: a small library in C, loaded before the program, refuses one call for memory after the other, of loads of the rows `one-put`, `sync-then-get` and `forty-rows`, and of a `get` and a `scan` over
the last. Where a run ends with another status than that of no memory, it is a fault that docs/COMMANDS.md lists, with its line: some of the calls are those of the C library, which opens a file or
starts a thread with them. What was printed before that line is answers of whole batches, or of a `scan` rows, and files are left as above. A compiler `cc` is needed for this part.

Prints a line for each run that isn't so, and how the runs ended; ends with 1 where one isn't so.
"""
import argparse
import collections
import os
import shutil
import subprocess
import sys
import tempfile
import time

NAMES = ("1-Data.db", "1-Rows.db", "1-Partitions.db", "1-Schema.txt")
UNFINISHED = ("error: unfinished\n", 8)
EXISTS = ("error: exists\n", 9)
NO_MEMORY = 12
# The lines of the faults in which want of memory may show, by their statuses.
FAULTS = {4: "error: source fault\n", 5: "", 6: "error: store fault\n"}
NUMBERS = "(int; ; text)"

SHIM = r"""
#include <errno.h>
#include <fcntl.h>
#include <stdatomic.h>
#include <stdlib.h>
#include <unistd.h>
extern void *__libc_malloc(size_t);
extern void *__libc_calloc(size_t, size_t);
extern void *__libc_realloc(void *, size_t);
extern void *__libc_memalign(size_t, size_t);
static atomic_long calls;
static long refused_call;
__attribute__((constructor)) static void begin(void) { const char *n = getenv("REFUSED_CALL"); refused_call = n ? atol(n) : 0; calls = 0; }
static int refused(void) {
    if (refused_call == 0 || atomic_fetch_add(&calls, 1) + 1 != refused_call) return 0;
    const char *mark = getenv("REFUSED_MARK");
    int file = mark ? open(mark, O_CREAT | O_WRONLY, 0600) : -1;
    if (file >= 0) close(file);
    errno = ENOMEM;
    return 1;
}
void *malloc(size_t n) { return refused() ? NULL : __libc_malloc(n); }
void *calloc(size_t n, size_t m) { return refused() ? NULL : __libc_calloc(n, m); }
void *realloc(void *p, size_t n) { return refused() ? NULL : __libc_realloc(p, n); }
void *memalign(size_t a, size_t n) { return refused() ? NULL : __libc_memalign(a, n); }
void *aligned_alloc(size_t a, size_t n) { return memalign(a, n); }
int posix_memalign(void **p, size_t a, size_t n) { void *q = memalign(a, n); if (q == NULL) return ENOMEM; *p = q; return 0; }
"""


class Room:
    """Folders that are removed at the end, and what was wrong."""

    def __init__(self, program):
        self.program = program
        self.top = tempfile.mkdtemp(prefix="faults-")
        self.count = 0
        self.wrong = []

    def folder(self):
        self.count += 1
        path = os.path.join(self.top, str(self.count))
        os.mkdir(path)
        return path

    def run(self, words, folder, source="/dev/null", environment=None):
        with open(source, "rb") as given:
            done = subprocess.run([self.program] + words, cwd=folder, stdin=given, stdout=subprocess.PIPE, env=environment)
        return done.stdout.decode("utf-8", "replace"), done.returncode

    def expect(self, what, found, wanted):
        if found != wanted:
            self.wrong.append(f"{what}\n  expected {wanted!r:.300}\n  found    {found!r:.300}")


def held(folder):
    """The files of a folder by their names."""
    files = {}
    for name in os.listdir(folder):
        with open(os.path.join(folder, name), "rb") as file:
            files[name] = file.read()
    return files


def check_left(room, what, files, whole):
    """Each file begins the whole one, and Schema.txt has bytes only where the others are whole. Says whether it is whole too."""
    room.expect(f"{what}: names", sorted(set(files) - set(NAMES)), [])
    for name in files:
        if not whole[name].startswith(files[name]):
            room.wrong.append(f"{what}: {name} doesn't begin the whole file")
    others = all(files.get(name) == whole[name] for name in NAMES[:3])
    if files.get(NAMES[3]) and not others:
        room.wrong.append(f"{what}: Schema.txt has bytes, and another file isn't whole")
    return others and files.get(NAMES[3]) == whole[NAMES[3]]


# ---- kills


class Loads:
    """The load that is killed: its words, its script, and what a load that ended leaves and answers."""

    def __init__(self, room, lines):
        self.room = room
        self.script = os.path.join(room.top, "script")
        self.small = os.path.join(room.top, "small")
        with open(self.script, "w", encoding="ascii") as out:
            for i in range(lines):
                out.write(f"put ({i * 7919 % (2 * lines) - lines}) () = 'value {i}'\n")
        with open(self.small, "w", encoding="ascii") as out:
            out.write("put (1) () = 'a'\n")
        self.words = ["load", "--schema", NUMBERS, "--bounds", f"({-lines // 2})(0)({lines // 2})", "--cells", str(max(1024, 4 * lines))]
        self.keys = [f"({-lines}) ()", "(0) ()", f"({lines * 9}) ()"]
        self.whole_folder = room.folder()
        self.begins, self.ends = self.timed(self.whole_folder)
        self.whole = held(self.whole_folder)
        self.scan = room.run(["scan"], self.whole_folder)
        self.gets = [room.run(["get", key], self.whole_folder) for key in self.keys]
        room.expect("the load that isn't killed: scan", self.scan[1], 0)

    def start(self, folder):
        with open(self.script, "rb") as given:
            return subprocess.Popen([self.room.program] + self.words, cwd=folder, stdin=given, stdout=subprocess.DEVNULL)

    def timed(self, folder):
        """When the first file is there, and when the load ends, in seconds from its start."""
        began, first = time.perf_counter(), None
        child = self.start(folder)
        while child.poll() is None:
            if first is None and os.listdir(folder):
                first = time.perf_counter() - began
            time.sleep(0.0005)
        ended = time.perf_counter() - began
        self.room.expect("the load that isn't killed: status", child.returncode, 0)
        return first or ended, ended

    def kill(self, after):
        """The folder of a load that is killed after so many seconds."""
        folder = self.room.folder()
        child = self.start(folder)
        time.sleep(after)
        child.kill()
        child.wait()
        return folder

    def look(self, what, folder):
        """Compares what is left, and gives how it is to be called."""
        room, files = self.room, held(folder)
        is_whole = check_left(room, what, files, self.whole)
        room.expect(f"{what}: scan", room.run(["scan"], folder), self.scan if is_whole else UNFINISHED)
        for key, answer in zip(self.keys, self.gets):
            room.expect(f"{what}: get {key}", room.run(["get", key], folder), answer if is_whole else UNFINISHED)
        again = room.run(["load", "--schema", NUMBERS], folder, self.small)
        room.expect(f"{what}: load", again, EXISTS if files else ("ok puts 1 rows 1 partitions 1\n", 0))
        if files:
            room.expect(f"{what}: files after that", held(folder) == files, True)
        shutil.rmtree(folder)
        return "the whole table" if is_whole else "part of it" if files else "nothing"


def kills(room, lines, moments):
    loads = Loads(room, lines)
    half = moments // 2
    spread = [loads.ends * (i + 0.5) / half for i in range(half)]
    # Somewhat longer than it takes, so that some loads have ended.
    writing = [loads.begins + 1.1 * (loads.ends - loads.begins) * (i + 0.5) / (moments - half) for i in range(moments - half)]
    left = collections.Counter()
    for after in spread + writing:
        left[loads.look(f"killed after {after:.4f} s", loads.kill(after))] += 1
    told = ", ".join(f"{what} {left[what]} times" for what in ("nothing", "part of it", "the whole table"))
    print(f"{lines} lines, {loads.ends:.2f} s of which the files take {loads.ends - loads.begins:.2f} s, killed at {moments} moments; left was {told}")


# ---- memory


class Refusals:
    def __init__(self, room):
        self.room = room
        self.shim = os.path.join(room.top, "refuse.so")
        self.mark = os.path.join(room.top, "mark")
        with open(os.path.join(room.top, "refuse.c"), "w", encoding="ascii") as out:
            out.write(SHIM)
        subprocess.run(["cc", "-O1", "-shared", "-fPIC", "-o", self.shim, os.path.join(room.top, "refuse.c")], check=True)

    def run(self, words, folder, source, call):
        """What is printed and the status where this call is refused, and whether there was such a call."""
        environment = {**os.environ, "LD_PRELOAD": self.shim, "REFUSED_CALL": str(call), "REFUSED_MARK": self.mark}
        answer = self.room.run(words, folder, source, environment)
        came = os.path.exists(self.mark)
        if came:
            os.remove(self.mark)
        return answer, came

    def load(self, name, schema, script):
        """Refuses each call of a load, and gives the folder of one that ended."""
        source = os.path.join(self.room.top, name)
        with open(source, "w", encoding="ascii") as out:
            out.write(script)
        words, folder = ["load", "--schema", schema], self.room.folder()
        whole_answer = self.room.run(words, folder, source)
        whole = {**dict.fromkeys(NAMES, b""), **held(folder)}
        answers = whole_answer[0].splitlines(keepends=True)[:-1]
        ends, call = collections.Counter(), 0
        while True:
            call += 1
            tried = self.room.folder()
            answer, came = self.run(words, tried, source, call)
            what = f"{name}, call {call}"
            if not came:
                self.room.expect(what, answer, whole_answer)
                break
            is_whole = check_left(self.room, what, held(tried), whole)
            before = ["".join(answers[:count]) for count in range(len(answers) + 1)]
            self.check(what, answer, before, whole_answer, ends, " with the table whole" if is_whole and answer[1] else "")
            shutil.rmtree(tried)
        self.tell(f"load of {name}", call - 1, ends)
        return folder

    def query(self, name, words, folder):
        whole_answer = self.room.run(words, folder)
        files = held(folder)
        text = whole_answer[0]
        ends, call = collections.Counter(), 0
        while True:
            call += 1
            answer, came = self.run(words, folder, "/dev/null", call)
            if not came:
                self.room.expect(f"{name}, call {call}", answer, whole_answer)
                break
            printed = answer[0]
            line = FAULTS.get(answer[1], "")
            rest = printed[: len(printed) - len(line)] if line else printed
            self.check(f"{name}, call {call}", answer, [rest] if text.startswith(rest) else [""], whole_answer, ends, "")
        self.room.expect(f"{name}: files", held(folder) == files, True)
        self.tell(name, call - 1, ends)

    def check(self, what, answer, before, whole_answer, ends, note):
        """The answer is that of a run which ended, or no memory, or a fault with its line, behind one of these texts."""
        text, status = answer
        if answer == whole_answer:
            ends["as if nothing was refused"] += 1
            return
        line = "" if status == NO_MEMORY else FAULTS.get(status)
        if line is None or text not in [each + line for each in before]:
            self.room.wrong.append(f"{what}: status {status}, {text!r:.200}")
        ends[f"status {status}{note}"] += 1

    def tell(self, what, count, ends):
        if count == 0:
            self.room.wrong.append(f"{what}: no call for memory came to the library, so nothing was tried")
        told = ", ".join(f"{number} in {end}" if end.startswith("status") else f"{number} {end}" for end, number in sorted(ends.items()))
        print(f"{what}: {count} calls for memory refused in turn; {told}")


def memory(room):
    if shutil.which("cc") is None:
        print("skipped: there is no compiler cc, so no memory is refused")
        return
    refusals = Refusals(room)
    one = "put (1) () = 'a'\n"
    refusals.load("one-put", NUMBERS, one)
    refusals.load("sync-then-get", NUMBERS, one + "sync\nget (1) ()\n")
    folder = refusals.load("forty-rows", "(int; int; blob)", "".join(f"put (1) ({i}) = 0x{'11' * 1000}\n" for i in range(40)))
    refusals.query("get over forty-rows", ["get", "(1) (17)"], folder)
    refusals.query("scan over forty-rows", ["scan"], folder)


def main():
    parser = argparse.ArgumentParser(description=__doc__, formatter_class=argparse.RawDescriptionHelpFormatter)
    parser.add_argument("program")
    parser.add_argument("--lines", type=int, default=200_000)
    parser.add_argument("--moments", type=int, default=200)
    parser.add_argument("--only", choices=("kills", "memory"))
    options = parser.parse_args()
    room = Room(os.path.abspath(options.program))
    try:
        if options.only != "memory":
            kills(room, options.lines, options.moments)
        if options.only != "kills":
            memory(room)
    finally:
        shutil.rmtree(room.top)
    for text in room.wrong:
        print(text)
    print(f"{len(room.wrong)} wrong")
    sys.exit(1 if room.wrong else 0)


if __name__ == "__main__":
    main()
