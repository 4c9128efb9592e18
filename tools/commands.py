"""What the tools share as commands: files that are read, and an end in words where something fails."""
import argparse
import os
import sys

WRITING_FAILED = 5  # as the program has it


class Unreadable(Exception):
    """A file that cannot be read, in words."""


def opened(name):
    """A file, to be read as bytes."""
    try:
        return open(name, "rb")
    except FileNotFoundError:
        raise Unreadable(f"no such file: {name}") from None
    except OSError as it:
        raise Unreadable(f"{name} cannot be read: {it.strerror}") from None


def bytes_of(name):
    with opened(name) as file:
        try:
            return file.read()
        except OSError as it:
            raise Unreadable(f"{name} cannot be read: {it.strerror}") from None


def parser_of(text):
    """A parser whose help is a module's own text."""
    about, _, more = text.partition("\n\n")
    return argparse.ArgumentParser(description=about, epilog=more, formatter_class=argparse.RawDescriptionHelpFormatter)


def usage(text, words):
    """Tells how a command is used, and gives its status: 0 where it was asked, and else 2."""
    is_asked = words in (["-h"], ["--help"])
    print(text, file=sys.stdout if is_asked else sys.stderr)
    return 0 if is_asked else 2


def say(text):
    print(f"{os.path.basename(sys.argv[0])}: {text}", file=sys.stderr, flush=True)


def run(main):
    """Ends with the status of `main`. Where writing fails that is 5, and says why, but for a reader that has left."""
    for it in (sys.stdout, sys.stderr):
        if it:
            it.reconfigure(errors="backslashreplace")  # so that every name can be told in every locale
    try:
        if sys.stdout is None:
            raise OSError(0, "standard output is closed")
        status = main()
        sys.stdout.flush()
    except BrokenPipeError:
        left_unwritten()
        status = WRITING_FAILED
    except OSError as it:
        is_writing = it.strerror and not it.filename
        left_unwritten()
        say(f"writing failed: {it.strerror}" if is_writing else it)
        status = WRITING_FAILED if is_writing else 2
    except KeyboardInterrupt:
        status = 130
    sys.exit(status)


def left_unwritten():
    """Lets go of what waits to be written, at which Python would fail once more at its end."""
    if sys.stdout:
        os.dup2(os.open(os.devnull, os.O_WRONLY), sys.stdout.fileno())
