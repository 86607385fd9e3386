"""What is told to the person at the terminal: what was wrong, what is noted, how far a long run is."""
import difflib
import sys
import time


class Trouble(Exception):
    """Something that the person who runs a script can mend, said in a sentence or two."""


def nearest(word, known, number=3):
    """The known names that a word may have meant, the likeliest first."""
    known = sorted(set(known))
    by_end = [it for it in known if it.rpartition(".")[2] == word.rpartition(".")[2]]
    close = difflib.get_close_matches(word, known, number)
    return (by_end + [it for it in close if it not in by_end])[:number]


def no_such(kind, word, known):
    """The Trouble of a name that names nothing."""
    near = nearest(word, known)
    if near:
        return Trouble(f"no {kind} is named {word}; did you mean {' or '.join(near)}?")
    if known:
        return Trouble(f"no {kind} is named {word}; there are: {', '.join(sorted(set(known))[:12])}")
    return Trouble(f"no {kind} is named {word}, and the P4Info has no {kind}; "
                   "a line `config ..` or `names FILE` before this one says whose names are meant")


class Progress:
    """Says on standard error how far a run is, from two seconds on, and then once a second on a
    terminal or every ten seconds elsewhere. Where the total is not known, how much is done. It looks
    at the clock once in so many times that `at` is called."""

    def __init__(self, script, what, total=None, every=256):
        self.script, self.what, self.total, self.every = script, what, total, every
        self.on_terminal = sys.stderr.isatty()
        self.next = time.monotonic() + 2
        self.has_told = False

    def at(self, done):
        """Called with what is done so far, of which nothing is told before there is any; cheap where nothing is due."""
        if not done or done % self.every or time.monotonic() < self.next:
            return
        self.next = time.monotonic() + (1 if self.on_terminal else 10)
        self.has_told = True
        text = f"{self.script}: {done:,} {self.what}"
        if self.total:
            text = f"{self.script}: {done:,} of {self.total:,} {self.what} ({100 * done // self.total} %)"
        print(f"\r{text}" if self.on_terminal else text, end="" if self.on_terminal else "\n",
              file=sys.stderr, flush=True)

    def end(self):
        """Closes the line on a terminal."""
        if self.has_told and self.on_terminal:
            print(file=sys.stderr)
