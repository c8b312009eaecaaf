"""Words, the file that comes in, and the result that goes out only once all of it is made."""

import errno
import ipaddress
import os
import signal
import sys
import tempfile

PIECE = 1 << 20
HELD_IN_MEMORY = 16 << 20


class Fault(Exception):
    """Why a file isn't converted: one line of text about that file."""


class BadWords(Exception):
    """The words of the call are none that the usage knows."""


class Input:
    """Bytes that come in, and the place that was reached."""

    def __init__(self, stream):
        self.stream = stream
        self.place = 0

    def up_to(self, length):
        """The next LENGTH bytes: fewer only where the input ends."""
        try:
            piece = self.stream.read(length)
        except OSError as error:
            raise Fault(f"can't be read behind byte {self.place}: {reason(error)}") from error
        # A stream that doesn't block answers so where it has nothing yet.
        if piece is None:
            raise Fault(f"can't be read behind byte {self.place}: nothing is there yet")
        self.place += len(piece)
        return piece

    def exactly(self, length, part, place):
        """The next LENGTH bytes. They belong to a PART of the file that begins at PLACE."""
        piece = self.up_to(length)
        if len(piece) < length:
            raise Fault(f"ends inside the {part} at byte {place}")
        return piece

    def front(self, length, part):
        """The first LENGTH bytes of the next PART, or none at the end of the file."""
        place = self.place
        piece = self.up_to(length)
        if 0 < len(piece) < length:
            raise Fault(f"ends inside the {part} at byte {place}")
        return piece


def reason(error):
    return error.strerror or type(error).__name__


def shown(path):
    """The path as a line can have it."""
    return path if path.isprintable() else repr(path)


def address_of(word):
    try:
        address = ipaddress.ip_address(word)
    except ValueError:
        raise BadWords from None
    # A zone names an interface of one machine, and no packet has it.
    if "%" in word:
        raise BadWords
    return address


def port_of(word):
    if not (word.isascii() and word.isdigit() and len(word) <= 15 and 0 < int(word) < 65_536):
        raise BadWords
    return int(word)


def said(words, options):
    """What the words say: the value of each option and the one file, each None where it isn't named."""
    values = dict.fromkeys([*options, "file"])
    left = iter(words)
    for word in left:
        if word in options:
            name, value = word, options[word](next(left, ""))
        elif word.startswith("-"):
            raise BadWords
        else:
            name, value = "file", word
        if values[name] is not None:
            raise BadWords
        values[name] = value
    return values


def tell(text):
    """Writes to standard error. Nothing is left to do where that fails."""
    # Where it was closed from the start, its number may be that of another file now.
    if sys.stderr is None:
        return
    try:
        os.write(2, f"{text}\n".encode("utf-8", "backslashreplace"))
    except OSError:
        pass


def opened(path):
    """The file at PATH, or standard input where there is none."""
    if path is None and sys.stdin is None:
        raise Fault("is closed")
    try:
        return open(0 if path is None else path, "rb", buffering=PIECE)
    except OSError as error:
        raise Fault(f"can't be opened: {reason(error)}") from error


def hand_out(held):
    """Copies what was held to standard output."""
    if sys.stdout is None:
        raise OSError(errno.EBADF, "standard output is closed")
    # The plain call keeps nothing back, so nothing is left to fail when the program ends.
    for piece in iter(lambda: held.read(PIECE), b""):
        rest = memoryview(piece)
        while rest:
            rest = rest[os.write(1, rest) :]


def converted(path, convert):
    """Converts a file. What CONVERT wrote goes out if it read the file to the end, and else not a byte of it."""
    with opened(path) as stream, tempfile.SpooledTemporaryFile(HELD_IN_MEMORY) as held:
        line = convert(Input(stream), held)
        held.seek(0)
        hand_out(held)
    return line


def status_and_line(path, convert):
    """Converts a file. Gives the program's status, and what is told at its end, if anything is."""
    name = "standard input" if path is None else shown(path)
    try:
        return 0, converted(path, convert)
    except Fault as fault:
        return 1, f"{name}: {fault}"
    except BrokenPipeError:
        return 1, None
    except OSError as error:
        return 1, f"can't write: {reason(error)}"
    except MemoryError:
        return 1, "there is too little memory"


def run(program, usage, choice_of, convert):
    """The whole program. CHOICE_OF gives the file and the choice that the words name. CONVERT converts the file."""
    signal.signal(signal.SIGINT, signal.SIG_DFL)
    try:
        path, choice = choice_of(sys.argv[1:])
    except BadWords:
        tell(str(usage).strip())
        return 2
    status, line = status_and_line(path, lambda source, result: convert(source, choice, result))
    if line is not None:
        tell(f"{program}: {line}")
    return status
