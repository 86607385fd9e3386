#!/usr/bin/env python3
"""proving.py TOP PROGRAM COMMAND ..

Runs a command that proves the crates below a program, in the program's folder, and tells on standard
error each crate as it is proved and how many are left. What the command writes is kept, and shown only
where it fails. The status is the command's own.
"""
import os
import subprocess
import sys
import tempfile
import time

HEARTBEAT = 30


def read_crates(top):
    """The crates that each crate of crates.txt stands on, those of the repository alone."""
    found = {}
    with open(os.path.join(top, "crates.txt"), encoding="utf-8") as it:
        for line in it:
            head, colon, rest = line.partition("#")[0].partition(":")
            if colon:
                found[head.split()[0]] = rest.split()
    return {name: [it for it in deps if it in found] for name, deps in found.items()}


def below_each(crates):
    """The crates below each crate, each behind those that it stands on."""
    found = {}

    def visit(name):
        if name not in found:
            found[name] = []
            for dep in crates[name]:
                visit(dep)
                found[name] += [it for it in [*found[dep], dep] if it not in found[name]]

    for name in crates:
        visit(name)
    return found


def stamp(top, name):
    """When the crate's library was last proved and kept, or None."""
    try:
        return os.stat(os.path.join(top, "crates", name, "out/rlib/stamp")).st_mtime_ns
    except OSError:
        return None


def is_due(top, name, crates):
    """Whether a crate looks as if it is to be proved: nothing is kept of it, or it is older than its
    sources or than a crate below it."""
    kept = stamp(top, name)
    if kept is None:
        return True
    for part in ("src", "specs", "proofs"):
        for folder, _, files in os.walk(os.path.join(top, "crates", name, part)):
            if any(os.stat(os.path.join(folder, it)).st_mtime_ns > kept for it in files):
                return True
    return any((stamp(top, it) or 0) > kept for it in crates[name])


class Watch:
    """Which of the crates below a program are proved since the watch began."""

    def __init__(self, top, program, crates):
        self.top, self.below = top, below_each(crates)
        order = self.below[program]
        self.marks = {it: stamp(top, it) for it in order}
        due = set()
        for name in order:
            if is_due(top, name, crates) or due & set(crates[name]):
                due.add(name)
        self.left = [it for it in order if it in due]
        self.all = len(self.left)

    def look(self):
        """The crates that were proved since the last look. What a proved crate stands on is proved."""
        new = [it for it in self.left if stamp(self.top, it) not in (None, self.marks[it])]
        done = {it for name in new for it in [*self.below[name], name]}
        found = [it for it in self.left if it in done]
        self.left = [it for it in self.left if it not in done]
        return found

    def at(self):
        """What is being proved, as far as it shows. Before the first crate all sources are read once."""
        for name in self.left:
            folder = os.path.join(self.top, "crates", name, "out/rlib")
            if os.path.isdir(folder) and stamp(self.top, name) is None:
                return name
        if not self.left:
            return "the program"
        return "the sources of all crates" if len(self.left) == self.all else self.left[0]


def span(seconds):
    """A time in words."""
    minutes, seconds = divmod(int(seconds), 60)
    return f"{minutes} min {seconds} s" if minutes else f"{seconds} s"


def tell(program, text):
    """A line on standard error."""
    print(f"{program}: {text}", file=sys.stderr, flush=True)


def crates_left(number):
    """`3 crates left`."""
    return f"{number} crate{'s' * (number != 1)} left" if number else "only the program itself left"


class Teller:
    """Tells how far the proving is: each crate as it is proved, what the command waits for, and, where
    nothing was to be told for a while, what it is at."""

    def __init__(self, top, program, log):
        self.program, self.log, self.seen = program, log, 0
        self.watch = Watch(top, program, read_crates(top))
        self.begun = self.last = self.spoken = time.monotonic()
        tell(program, f"{self.watch.all} crates and the program are to be proved and built, which takes "
                      "many minutes on a new machine; a first look in two to four: bin/p4switch --preview ..")

    def look(self):
        """Tells what is new."""
        now = time.monotonic()
        for name in self.watch.look():
            tell(self.program, f"proved {name} ({span(now - self.last)}), {crates_left(len(self.watch.left))}")
            self.last = self.spoken = now
        self.seen, said = waiting(self.log, self.seen)
        for line in said:
            tell(self.program, line)
            self.spoken = now
        if now - self.spoken >= HEARTBEAT:
            tell(self.program, f"at {self.watch.at()} for {span(now - self.last)}, {crates_left(len(self.watch.left))}, "
                               f"{span(now - self.begun)} so far")
            self.spoken = now

    def end(self, status, command):
        """Tells how it ended."""
        self.look()
        if not status:
            tell(self.program, f"proved and built in {span(time.monotonic() - self.begun)}")
            return
        self.log.seek(0)
        sys.stderr.write(self.log.read())
        tell(self.program, f"not proved; mend what is told above, or run {' '.join(command[:2])} "
                           f"in crates/{self.program}")


def run(top, program, command):
    """Runs the command and tells how far it is; gives its status. Where this process is interrupted the
    command is ended too."""
    with tempfile.TemporaryFile("w+", errors="replace") as log:
        teller = Teller(top, program, log)
        child = subprocess.Popen(command, cwd=os.path.join(top, "crates", program), stdout=log,
                                 stderr=subprocess.STDOUT)
        try:
            while True:
                try:
                    status = child.wait(0.5)
                    break
                except subprocess.TimeoutExpired:
                    teller.look()
        except KeyboardInterrupt:
            child.terminate()
            child.wait()
            return 130
        teller.end(status, command)
    return status


def waiting(log, seen):
    """What the log says since it was seen last of waiting for another run, and how far it is seen."""
    whole = os.fstat(log.fileno()).st_size
    text = os.pread(log.fileno(), whole - seen, seen).decode(errors="replace")
    return whole, [it for it in text.splitlines() if "waiting" in it]


if __name__ == "__main__":
    sys.exit(run(sys.argv[1], sys.argv[2], sys.argv[3:]))
