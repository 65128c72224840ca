"""Files and the standard streams. What goes wrong with them is said in a line."""
import contextlib
import io
import os
import sys
import tempfile

from . import Trouble

STANDARD = "-"      # as the name of a file: standard input or output
MOST = 1 << 24      # bytes that are read at most, many times what a book in any form has


def shown(name):
    return "<standard input>" if name == STANDARD else name


def read_bytes(name):
    try:
        if name == STANDARD:
            data = sys.stdin.buffer.read(MOST + 1)
        else:
            with open(name, "rb") as file:
                data = file.read(MOST + 1)
    except OSError as wrong:
        raise Trouble(f"{shown(name)}: {wrong.strerror}") from None
    if len(data) > MOST:
        raise Trouble(f"{shown(name)}: more than {MOST} bytes, which no book has")
    return data


def write_bytes(name, data):
    """To standard output where no file is named."""
    if name in (None, STANDARD):
        sys.stdout.flush()
        sys.stdout.buffer.write(data)
        sys.stdout.buffer.flush()
        return
    try:
        write_file(os.path.realpath(name), data)
    except OSError as wrong:
        raise Trouble(f"{name}: {wrong.strerror}") from None


def write_file(name, data):
    """A file is written whole or not at all; what is none, such as a device, as it comes."""
    there = os.path.exists(name)
    if there and not os.path.isfile(name):
        return write_into(name, data)
    if there:
        # Not to replace what may not be written.
        with open(name, "r+b"):
            pass
    try:
        handle, part = tempfile.mkstemp(prefix=".book-", suffix=".part", dir=os.path.dirname(name))
    except PermissionError:
        return write_into(name, data)
    try:
        write_into(handle, data)
        os.chmod(part, os.stat(name).st_mode & 0o7777 if there else 0o666 & ~umask())
        os.replace(part, name)
    except BaseException:
        with contextlib.suppress(OSError):
            os.unlink(part)
        raise


def write_into(file, data):
    with open(file, "wb") as opened:
        opened.write(data)


def umask():
    found = os.umask(0)
    os.umask(found)
    return found


# ---- the standard streams

def prepare_streams():
    """Streams that are closed fail when they are used, output is written whole or fails, and letters that a terminal has not
    are written as \\x and hex digits."""
    for name, mode, flags in (("stdin", "r", os.O_WRONLY), ("stdout", "w", os.O_RDONLY), ("stderr", "w", os.O_WRONLY)):
        if getattr(sys, name) is None:
            setattr(sys, name, open(os.open(os.devnull, flags), mode))
    if isinstance(sys.stdout.buffer, io.RawIOBase):
        sys.stdout = open(sys.stdout.fileno(), "w", encoding=sys.stdout.encoding, closefd=False)
    for stream in (sys.stdout, sys.stderr):
        stream.reconfigure(errors="backslashreplace")


def say(words):
    """A line on standard error. If that cannot be written, nothing is left to say it to."""
    try:
        print(f"book: {words}", file=sys.stderr, flush=True)
    except OSError:
        discard(sys.stderr)


def discard(stream):
    """Nothing more is written to the stream, at the end of the run either."""
    with open(os.devnull, "wb") as nothing:
        os.dup2(nothing.fileno(), stream.fileno())
