"""Plans as the command line names them. They are read while arguments are looked at, so that a file
that is not there is said before anything is built or run."""
import argparse
import dataclasses
import json
import os
import sys
from typing import Optional

from .refusals import excerpt, shown

# more than any plan has, and little enough to read from a device that never ends
MOST_BYTES = 1 << 20

_taken = []


@dataclasses.dataclass(frozen=True)
class PlanFile:
    """A file's name as it may be shown, its bytes, and its path, which standard input has none of."""
    name: str
    text: bytes
    path: Optional[str] = None


def shown_name(name: str) -> str:
    """A file's name without bytes that a terminal would act on."""
    return shown(os.fsencode(name))


def plan_file(name: str) -> PlanFile:
    """The type of a PLAN argument: a file, or - for standard input."""
    said = "standard input" if name == "-" else shown_name(name)
    try:
        if name == "-":
            if "-" in _taken:
                raise argparse.ArgumentTypeError("standard input can be read only once")
            _taken.append("-")
            if sys.stdin is None:
                raise argparse.ArgumentTypeError("standard input is closed")
            text = sys.stdin.buffer.read(MOST_BYTES + 1)
        elif os.path.isdir(name):
            raise argparse.ArgumentTypeError(f"{said}: is a directory, not a plan")
        else:
            with open(name, "rb") as opened:
                text = opened.read(MOST_BYTES + 1)
    except OSError as why:
        raise argparse.ArgumentTypeError(f"{said}: {(why.strerror or 'cannot be read').lower()}") from None
    except ValueError:
        raise argparse.ArgumentTypeError(f"{said}: is no file name") from None
    if len(text) > MOST_BYTES:
        raise argparse.ArgumentTypeError(f"{said}: more than {MOST_BYTES} bytes, so it is no plan")
    return PlanFile(said, text, None if name == "-" else name)


def number_of(low, high, due=None):
    """The type of an argument that takes a number within limits.

    `due` has the limits to ask for, where the library judges them and may be handed more.
    """
    due = due or f"a number from {low} to {high}"

    def number(said):
        if not said.isascii() or not said.isdigit() or len(said) > 12 or not low <= int(said) <= high:
            raise argparse.ArgumentTypeError(f"{due} is due")
        return int(said)
    return number


def refusal_lines(name, refused):
    """A refusal as a compiler would say it: line, column and words, the line with a caret, and the fix.

    Where no line is at fault there is none to show.
    """
    if refused.line is None:
        lines = [f"{name}: {refused}"]
    else:
        line, caret = excerpt(refused.text, refused.offset)
        lines = [f"{name}:{refused}"] + ([f"    {line}", f"    {caret}"] if line.strip() else [])
    return lines + ([f"    fix: {refused.fix}"] if refused.fix else [])


def refusal_values(refused):
    """A refusal for programs."""
    return {"number": refused.number, "companion": refused.companion, "line": refused.line,
            "column": refused.column, "offset": refused.offset, "words": refused.words,
            "fix": refused.fix}


def print_refused(args, refused, stream=None):
    """Prints why a plan was refused, for people or as JSON; the exit status.

    People are told on the stream: standard output, but where that may become a plan.
    """
    if args.json:
        print(json.dumps(dict(file=args.plan.name, refusal=refusal_values(refused)), indent=2))
    else:
        print("\n".join(refusal_lines(args.plan.name, refused)), file=stream)
    return 1
