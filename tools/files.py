"""Files of the tools: read with a sentence for what can go wrong, and written
only where no file is yet."""

from contextlib import ExitStack


class Unusable(Exception):
    """A file that can't be read or written; the message is the sentence."""


def why(error):
    return (error.strerror or str(error)).lower()


def read(path, most):
    """The first bytes of a file, at most so many."""
    try:
        with open(path, "rb") as file:
            return file.read(most)
    except OSError as error:
        raise Unusable(f"{path} cannot be read: {why(error)}") from error


def check_new(paths):
    """Says early what write_new would refuse, before the long part."""
    if len(set(paths)) < len(paths):
        raise Unusable(f"{paths[0]} is named for two outputs")
    for path in paths:
        if path.exists() or path.is_symlink():
            raise Unusable(f"{path} is there already and is left as it is; "
                           "name a new file")


def write_new(contents):
    """Writes new files, {path: bytes}: all of them, or none."""
    check_new(list(contents))
    made = []
    try:
        with ExitStack() as stack:
            for path in contents:
                # "x": a file that came up meanwhile isn't written over.
                opened = stack.enter_context(open(path, "xb"))
                made.append((path, opened))
            for path, opened in made:
                opened.write(contents[path])
    except OSError as error:
        for path, _ in made:
            path.unlink(missing_ok=True)
        named = error.filename or "an output"
        raise Unusable(f"{named} cannot be written: {why(error)}") from error
