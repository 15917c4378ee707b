"""How a tool reads, writes and fails: whole inputs as bytes, and one clear line on standard error for what goes wrong."""
import os
import sys


class Trouble(Exception):
    """What a tool says in one line before it ends with status 1."""


def named(name):
    """What an input is called in a message."""
    return "standard input" if name == "-" else name


def fetch(name):
    """The bytes of a file, or of standard input where the name is `-`."""
    try:
        with open(0, "rb", closefd=False) if name == "-" else open(name, "rb") as file:
            return file.read()
    except OSError as error:
        raise Trouble(f"{named(name)}: {error.strerror}")


def put(data):
    """Writes bytes to standard output, past Python's buffer, so that nothing is left to fail later."""
    try:
        while data:
            data = data[os.write(1, data) :]
    except OSError as error:
        raise Trouble(f"standard output: {error.strerror}")


def run(main, words):
    """Runs a tool on the words of its command line and ends the program."""
    try:
        main(words)
    except Trouble as trouble:
        sys.exit(str(trouble))
    except KeyboardInterrupt:
        sys.exit(130)
