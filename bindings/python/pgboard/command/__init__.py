"""What the words of `python3 -m pgboard` and the scripts of examples/ share: how they end, and how they run
other programs.

A signal that ends a command, as Ctrl-C does, first ends the programs that it runs and removes its temporary
files. Where there are none it ends the command at once. To import this module changes no signal: `run` does.
"""

# mypy: ignore-errors

import argparse
import contextlib
import errno
import functools
import gc
import os
import re
import signal
import subprocess
import sys
import time
import traceback

# the calls that a signal makes before it ends the command, the last one first; None where this is no command
undo = None
# while something is begun, signals wait
_begun, _waiting = [], []
# what is done at present, the innermost last
_works = []


def _end(number, _):
    _waiting.append(number)
    if _begun:
        return
    for it in reversed(undo):
        with contextlib.suppress(Exception):
            it()
    signal.signal(number, signal.SIG_DFL)
    os.kill(os.getpid(), number)


def on_signals(handler=signal.SIG_DFL):
    """Sets what signals do that end a command, except those that are ignored, as by nohup."""
    for it in (signal.SIGINT, signal.SIGTERM, signal.SIGHUP, signal.SIGQUIT):
        if signal.getsignal(it) != signal.SIG_IGN:
            signal.signal(it, handler)


# the statuses of the program, and two of our own
WORDS, TEXT, FILE, MEMORY, LATE, OWN = 2, 3, 4, 5, 6, 7
MOST_SHOWN, MOST_BEFORE = 60, 40
# no text that pgboard takes is longer
MOST_BYTES = 268_435_456


@contextlib.contextmanager
def _held():
    _begun.append(None)
    try:
        yield
    finally:
        _begun.pop()
        if _waiting and not _begun:
            os.kill(os.getpid(), _waiting.pop())


@contextlib.contextmanager
def undone(begin, end):
    """What `begin` returns. `end` is called on it afterwards, or before a signal ends the command."""
    with _held():
        if undo == []:
            on_signals(_end)
        made = begin()
        last = lambda: end(made)
        if undo is not None:
            undo.append(last)
    try:
        yield made
    finally:
        with _held():
            if undo is not None:
                undo.remove(last)
            last()
            if undo == []:
                on_signals()


def end(process):
    """Ends a program, which may first end what it has started and remove what it has made."""
    process.terminate()
    # (a signal may interrupt `process.wait`, whose lock can't be taken twice)
    with contextlib.suppress(ChildProcessError):
        for _ in range(500):
            if os.waitpid(process.pid, os.WNOHANG)[0]:
                return
            time.sleep(0.02)
        process.kill()
        os.waitpid(process.pid, 0)


def begun(words, **how):
    """A program that was started, whose end comes with the end of this context, or of this process."""
    from ctypes import CDLL

    # (PR_SET_PDEATHSIG of Linux; nothing is loaded between the fork and the program's start)
    end_with_us = functools.partial(CDLL(None).prctl, 1, signal.SIGTERM)
    return undone(lambda: subprocess.Popen(words, preexec_fn=end_with_us, **how), end)


def in_memory(data=b""):
    """A file that has these bytes, which a program can open as /dev/fd/N."""
    file = open(os.memfd_create("pgboard"), "w+b", 0)
    try:
        if file.write(data) < len(data):
            raise OSError(errno.EFBIG, os.strerror(errno.EFBIG))
    except OSError as error:
        error.filename = "a file in memory"
        raise
    file.seek(0)
    return file


def child(words, given=b"", timeout=None, **how):
    """Runs a program: its status, what it has written, and what it has said. Raises Refused after so many
    seconds, or where a signal has ended it; then what it has said follows.
    """
    with begun(words, **dict.fromkeys(("stdin", "stdout", "stderr"), subprocess.PIPE), **how) as process:
        try:
            out, said = process.communicate(given, timeout)
        except subprocess.TimeoutExpired as late:
            raise Refused(f"after {timeout:g} s it is not solved", LATE, said=late.stderr) from None
    if process.returncode < 0:
        raise Refused(f"{words[0]} was ended by signal {-process.returncode}", FILE, said=said)
    return process.returncode, out, said.decode(errors="backslashreplace")


def printable(text):
    """A text in which each character that doesn't print, as a line feed, is spelled out, and each byte that
    is no text.
    """
    spelled = lambda it: ascii(it)[1:-1].replace("\\udc", "\\x")
    return "".join(it if it.isprintable() else spelled(it) for it in text)


def shown(text):
    """A piece of a text as a message quotes it, which is cut where it is long."""
    text = printable(text[: MOST_SHOWN + 1])
    return text if len(text) <= MOST_SHOWN else text[:MOST_SHOWN] + ".."


def called(path):
    return "standard input" if path == "-" else path


def line_of(text, at):
    return text.count("\n", 0, at) + 1


class Refused(Exception):
    """Why there is no answer: one line, and the status. Where a place (path, text, offset) is given, its
    line and a mark follow, and then what another program has said.
    """

    def __init__(self, why, status=TEXT, place=None, said=b""):
        self.status, self.place = status, place
        self.lines = (said or b"").decode(errors="backslashreplace").splitlines()
        if place:
            path, text, at = place
            begin = text.rfind("\n", 0, at) + 1
            ends = text.find("\n", begin)
            why = f"{called(path)}:{line_of(text, at)}:{at - begin + 1}: {why}"
            first = max(begin, at - MOST_BEFORE)
            before, after = (
                printable(it.replace("\t", " "))
                for it in (
                    text[first:at],
                    text[at:][: MOST_SHOWN if ends < 0 else min(MOST_SHOWN, ends - at)],
                )
            )
            self.lines[:0] = [f"  {before}{after}".rstrip(), " " * (2 + len(before)) + "^"]
        super().__init__(printable(why))

    def said(self, name):
        """What standard error says of it. A line that names a place comes without the command's name, as
        editors read it.
        """
        return "\n".join([str(self) if self.place else f"{name}: {self}", *self.lines, ""])


def run(name, main):
    """Runs a command's `main` and ends with its status. Whatever is refused is said on standard error, after
    what `main` has printed; its status is above 1, and so is that of a fault of our own.
    """
    global undo
    undo, sys.stderr = [], sys.stderr or open(os.devnull, "w")
    try:
        sys.exit(begin(main))
    except Exception as error:
        if isinstance(error, BrokenPipeError):
            # a filter whose reader has ended says nothing
            signal.signal(signal.SIGPIPE, signal.SIG_DFL)
            os.kill(os.getpid(), signal.SIGPIPE)
        fault = fault_of(error)
    try:
        sys.stderr.write(fault.said(name))
    except OSError:
        # (the status says so alone, and Python's own, 1 or 120, does not come for what is left in the buffer)
        os.dup2(os.open(os.devnull, os.O_WRONLY), 2)
    sys.exit(fault.status)


def begin(main):
    for stream, spelled in ((sys.stdin, "standard input"), (sys.stdout, "standard output")):
        if stream is None:
            raise Refused(f"{spelled} is closed", FILE)
    # (it writes all or raises, and Python's own does not under -u)
    sys.stdout = open(1, "w", encoding="utf-8", errors="surrogateescape", closefd=False)
    # what a command makes lasts to its end, and to look for what does not takes as long as to make it
    gc.disable()
    try:
        with deep():
            return main(sys.argv[1:])
    finally:
        sys.stdout.flush()


@contextlib.contextmanager
def deep():
    """Calls may be as deep inside each other as texts that are read are."""
    before = sys.getrecursionlimit()
    sys.setrecursionlimit(max(before, 10_000))
    try:
        yield
    finally:
        sys.setrecursionlimit(before)


# with these a write failed
WRITES = errno.EPIPE, errno.ENOSPC, errno.EDQUOT, errno.EFBIG, errno.EIO, errno.EBADF


def fault_of(error):
    if isinstance(error, Refused):
        return error
    if isinstance(error, RecursionError):
        return Refused("nested too deeply")
    if isinstance(error, MemoryError):
        return Refused("memory was refused", MEMORY)
    if isinstance(error, OSError):
        where = error.filename or ("standard output" if error.errno in WRITES else "")
        # what is still to be written is not tried once more
        os.dup2(os.open(os.devnull, os.O_WRONLY), 1)
        return Refused(f"{where}: {error.strerror}" if where else str(error.strerror), FILE)
    fault = Refused("this is a mistake in the command: please report it, with what is below", OWN)
    fault.lines = traceback.format_exc().splitlines()
    return fault


@contextlib.contextmanager
def working(what):
    """Shows on a terminal each second what this command does, and for how long: what was yielded last, whose
    text may change.
    """
    if undo is None or not sys.stderr.isatty():
        yield [what]
        return
    if not _works:
        begun_at = time.monotonic()
        # (the signal may come while something is printed)
        say = lambda text: os.write(2, f"\r\x1b[K{text}".encode())
        show = lambda *_: say(f"pgboard: {printable(_works[-1][0])}, {int(time.monotonic() - begun_at)} s")
        signal.signal(signal.SIGALRM, show)
        signal.setitimer(signal.ITIMER_REAL, 1, 1)
    _works.append([what])
    try:
        yield _works[-1]
    finally:
        _works.pop()
        if not _works:
            signal.setitimer(signal.ITIMER_REAL, 0)
            if time.monotonic() - begun_at >= 1:
                say("")


class Parser(argparse.ArgumentParser):
    """A parser of a command's words, whose help has at most 80 columns."""

    def __init__(self, description, epilog="", is_raw=True, **how):
        kind = argparse.RawDescriptionHelpFormatter if is_raw else argparse.HelpFormatter
        form = lambda prog: kind(prog, width=80)
        super().__init__(
            description=description, epilog=epilog, formatter_class=form, allow_abbrev=False, **how
        )

    def print_help(self, file=None):
        # (argparse passes over a device that is full)
        print(self.format_help(), end="", file=file)


def number(word):
    """A number of a command line: digits from 0 to 9 alone, which int would not insist on."""
    if not re.fullmatch("-?[0-9]{1,4000}", word, re.ASCII):
        raise ValueError
    return int(word)


def seconds(word):
    """A time of a command line, above 0 and in ASCII."""
    value = float(word) if re.fullmatch(r"[0-9.]+(e[0-9]+)?", word, re.ASCII) else 0
    if not 0 < value <= 1e6:
        raise ValueError
    return value


seconds.__name__ = "number of seconds (above 0, up to 1000000)"


def of_form(form, what):
    """What argparse takes as the type of a word that has this form."""

    def word(text):
        if not re.fullmatch(form, text, re.DOTALL):
            raise ValueError
        return text

    word.__name__ = what
    return word


def read(path):
    """The bytes of a file, or for `-` of standard input. A fault names it: that of a failed read, other than
    of a failed open, does not.
    """
    try:
        with contextlib.nullcontext(sys.stdin.buffer) if path == "-" else open(path, "rb") as file:
            return pieces(path, file)
    except OSError as error:
        error.filename = "standard input" if path == "-" else path or "''"
        raise


def pieces(path, file):
    """What is read of a file to its end, which has not too many bytes."""
    found = bytearray()
    while len(found) <= MOST_BYTES:
        piece = file.read(1 << 20)
        if not piece:
            return found
        found += piece
    raise Refused(f"{called(path)}: it has more than {MOST_BYTES:,} bytes")


def write(path, data):
    """Writes a text or bytes to a file, which a fault names. Until all is written, one that is there stays,
    but where its folder takes no other.
    """
    data = data if isinstance(data, bytes) else data.encode("utf-8", "surrogateescape")
    # (what is no file, as a device, can't be replaced; and /dev/stdout is a file that others have open)
    is_stream = os.path.exists(path) and not os.path.isfile(path) or path.startswith(("/dev/", "/proc/"))
    try:
        if is_stream or not replaced(os.path.realpath(path) if path else "", data):
            with open(path, "wb") as file:
                file.write(data)
    except OSError as error:
        raise Refused(f"{path or repr(path)}: {error.strerror}", FILE) from None


def replaced(place, data):
    """Whether a file was made that replaces the one of this place, of the same owner and mode; False where
    the folder takes none.
    """
    is_there = os.path.exists(place)
    if is_there:
        # (this raises what keeps us from writing there)
        os.close(os.open(place, os.O_WRONLY))
    # (a longer name than the file's may be too long)
    new = os.path.join(os.path.dirname(place), f"pgboard.{os.urandom(6).hex()}")
    try:
        with undone(lambda: open(new, "xb"), removed) as file, file:
            if is_there:
                of = os.stat(place)
                with contextlib.suppress(PermissionError):
                    os.chown(new, of.st_uid, of.st_gid)
                os.chmod(new, of.st_mode & 0o7777)
            file.write(data)
            file.close()
            os.replace(new, place)
    except OSError as error:
        if is_there and error.errno in (errno.EACCES, errno.EPERM, errno.EROFS):
            return False
        raise
    return True


def removed(file):
    with contextlib.suppress(OSError):
        os.unlink(file.name)
