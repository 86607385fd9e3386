"""bin/p4ctl: words of the command line, a shell, lines of standard input, exit statuses."""
import argparse
import os
import sys

from google.protobuf.message import DecodeError

from p4tools import ctl_lines
from p4tools.ctl import Options, Refused, Session
from p4tools.ctl_complete import Known
from p4tools.live import Keys, NoSwitch, place_of
from p4tools.trouble import Trouble

DONE, REFUSED, WRONG, NO_SWITCH, INTERRUPTED = 0, 1, 2, 3, 130
HISTORY = 5000


def p4ctl(words):
    """Runs bin/p4ctl and gives its exit status: 0; 1 where the switch refused something; 2 for what is wrong with
    the words or the files; 3 where no switch answers."""
    given = _words().parse_args(words)
    try:
        session = Session(_options(given), _note)
    except Trouble as trouble:
        return _tell_wrong(trouble)
    try:
        if given.complete is not None:
            print("\n".join(it.strip() for it in Known(session).complete(given.complete)))
            return DONE
        if given.line == ["-"] or not given.line and not sys.stdin.isatty():
            return _take_input(session)
        if not given.line:
            return Shell(session).run()
        return _take_words(session, ctl_lines.lines_of(given.line))
    except BrokenPipeError:
        # (who reads has seen enough)
        os.dup2(os.open(os.devnull, os.O_WRONLY), 1)
        return WRONG
    except KeyboardInterrupt:
        return INTERRUPTED
    finally:
        session.close()


def _words():
    parser = argparse.ArgumentParser(
        prog="p4ctl", formatter_class=argparse.RawDescriptionHelpFormatter,
        description="Looks at and changes a switch that serves, in the words of a scenario. Without a LINE it is a "
                    "shell; with - it takes\nlines from standard input. `p4ctl help` lists the lines.")
    parser.add_argument("--at", default="127.0.0.1:9559", metavar="HOST:PORT", help="the switch (127.0.0.1:9559)")
    parser.add_argument("--device", type=int, default=1, metavar="N", help="its device id (1)")
    parser.add_argument("--role", type=int, default=0, metavar="N", help="the role in which it is changed (0)")
    parser.add_argument("--election", type=int, metavar="N", help="the election id with which to arbitrate; without "
                        "it, the greatest that the role was asked for, where no controller is primary")
    parser.add_argument("--packets", type=int, default=9000, metavar="PORT", help="the UDP port for packets (9000)")
    parser.add_argument("--ca", metavar="FILE", help="TLS: the authority of the server's certificate")
    parser.add_argument("--cert", metavar="FILE", help="TLS: a certificate of one's own, with --key")
    parser.add_argument("--key", metavar="FILE")
    parser.add_argument("--complete", metavar="TEXT", help=argparse.SUPPRESS)
    parser.add_argument("line", nargs=argparse.REMAINDER, metavar="LINE")
    return parser


def _options(given):
    place_of(given.at)
    if not 1 <= given.packets <= 65534:
        raise Trouble("--packets is a UDP port from 1 to 65,534")
    if given.election is not None and not 1 <= given.election < 1 << 128:
        raise Trouble("--election is 1 or more, of 128 bits")
    if not 0 <= given.role < 1 << 64 or not 0 <= given.device < 1 << 64:
        raise Trouble("--role and --device are numbers of 64 bits")
    if bool(given.cert) != bool(given.key):
        raise Trouble("--cert and --key go together")
    keys = Keys(given.ca, given.cert, given.key)
    patience = 2 if given.complete is not None else 60
    return Options(given.at, given.device, given.role, given.election, given.packets, keys, patience)


def _note(text):
    print(f"p4ctl: note: {text}", file=sys.stderr)


def _tell_wrong(error, where=""):
    sys.stdout.flush()
    for line in str(error).split("\n"):
        print(f"p4ctl: {where}{line}", file=sys.stderr)
    return WRONG


def _take(session, line, where=""):
    """Does a line, telling as it goes; gives its status."""
    try:
        for told in ctl_lines.take(session, line):
            print(told, flush=True)
        return DONE
    except Refused as refusal:
        sys.stdout.flush()
        if where and refusal.lines:
            print(f"p4ctl: {where}refused", file=sys.stderr)
        for told in refusal.lines:
            print(told, file=sys.stderr)
        return REFUSED
    except NoSwitch as error:
        _tell_wrong(error, where)
        return NO_SWITCH
    except Trouble as trouble:
        return _tell_wrong(trouble, where)
    except DecodeError as error:
        return _tell_wrong(f"an answer is not read: {error}", where)
    except KeyboardInterrupt:
        if line.split()[:1] and line.split()[0] in ctl_lines.ENDLESS:
            return DONE
        raise


def _take_words(session, lines):
    for number, line in enumerate(lines, 1):
        where = f"line {number}: " if len(lines) > 1 else ""
        status = _take(session, line, where)
        if status:
            return status
    return _end_of_lines(session)


def _end_of_lines(session):
    if session.maker.block:
        return _tell_wrong(f"a {session.maker.block[0]} has no `end`")
    return DONE


def _take_input(session):
    """Lines of standard input, up to the first that is wrong or refused."""
    for number, line in enumerate(sys.stdin, 1):
        if line.split()[:1] == ["quit"]:
            break
        status = _take(session, line, f"line {number}: ")
        if status:
            return status
    return _end_of_lines(session)


class Shell:
    """Lines from a terminal, with completion and a history."""

    def __init__(self, session):
        self.session, self.known, self.found = session, Known(session), []
        folder = os.environ.get("XDG_STATE_HOME") or os.path.expanduser("~/.local/state")
        self.history = os.path.join(folder, "p4ctl_history")

    def run(self):
        """Takes lines until the end of the input; gives the status."""
        readline = self._readline()
        print(f"p4ctl at {self.session.options.at}: `help` lists the lines, Tab completes, Ctrl-D ends")
        try:
            while True:
                for told in self.session.waiting():
                    print(told)
                line = self._line()
                if line is None or line.split()[:1] in (["quit"], ["exit"]):
                    return DONE
                self.session.forget_names()
                self._take(line)
        finally:
            self._keep(readline)

    def _line(self):
        """The next line; None at the end of the input. Ctrl-C drops what was begun."""
        while True:
            try:
                block = self.session.maker.block
                return input("... " if block else f"p4ctl {self.session.options.at}> ")
            except EOFError:
                print()
                return None
            except KeyboardInterrupt:
                print("^C" + " (the block is dropped)" * bool(self.session.maker.block))
                self.session.drop_block()

    def _take(self, line):
        try:
            status = _take(self.session, line)
        except KeyboardInterrupt:
            print("^C")
            return
        if status == NO_SWITCH:
            self.session.drop_block()
            self.session.close()

    def _readline(self):
        try:
            import readline
        except ImportError:
            return None
        readline.set_completer_delims(" \t,(")
        readline.set_completer(lambda text, state: self._candidate(readline.get_line_buffer()[:readline.get_endidx()], state))
        readline.parse_and_bind("tab: complete")
        readline.set_history_length(HISTORY)
        try:
            readline.read_history_file(self.history)
        except OSError:
            pass
        return readline

    def _candidate(self, text, state):
        if state == 0:
            self.found = self.known.complete(text)
        return self.found[state] if state < len(self.found) else None

    def _keep(self, readline):
        if readline is None:
            return
        try:
            os.makedirs(os.path.dirname(self.history), exist_ok=True)
            readline.write_history_file(self.history)
        except OSError:
            pass
