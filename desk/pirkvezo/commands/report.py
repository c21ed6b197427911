"""report: one self-contained page about a plan and its run."""
import argparse
import os
import re
import sys

from ..advice import warnings
from ..inputs import number_of, plan_file, refusal_lines, shown_name
from ..plans import read
from ..refusals import Refused
from ..report import page, refused_page

NAME = "report"
HELP = "write one self-contained page: who holds which colour, the run as a timeline, all tables"
EXAMPLE = """example:
  pirkvezo report examples/filter.plan -o filter.html
  pirkvezo report long.plan --windows 100..199 -o part.html

A refused plan gives a page with the cause and what would fix it, and exit status 1."""
LOG_LENGTH = 16384
MOST_WINDOWS = 8192


def add_arguments(parser):
    parser.add_argument("plan", metavar="PLAN", type=plan_file,
                        help="a plan's file, or - for standard input")
    parser.add_argument("-o", "--output", metavar="FILE.html", required=True, type=output_file,
                        help="the page to write, or - for standard output")
    parser.add_argument("--windows", metavar="A..B", type=window_range,
                        help="draw and list windows A to B alone (both included, from 0)")
    parser.add_argument("--log-length", metavar="BYTES", default=LOG_LENGTH,
                        type=number_of(0, 1 << 24),
                        help="the log of the run (default 16384)")


def output_file(name):
    """The type of the output: a name that can be written, said before anything is built."""
    said = shown_name(name)
    if not name or "\0" in name:
        raise argparse.ArgumentTypeError("the output needs a file name")
    if name != "-" and os.path.isdir(name):
        raise argparse.ArgumentTypeError(f"{said}: is a directory, not a file to write")
    if name != "-" and not os.path.isdir(os.path.dirname(name) or "."):
        raise argparse.ArgumentTypeError(f"{said}: its folder is not there")
    return name


def window_range(said):
    """The type of A..B.

    >>> window_range('3..5')
    range(3, 6)
    """
    found = re.fullmatch(r"([0-9]{1,6})\.\.([0-9]{1,6})", said)
    if not found:
        raise argparse.ArgumentTypeError("A..B is due, such as 0..9")
    first, last = int(found.group(1)), int(found.group(2))
    if first > last:
        raise argparse.ArgumentTypeError(f"window {first} comes after {last}")
    if last - first >= MOST_WINDOWS:
        raise argparse.ArgumentTypeError(f"at most {MOST_WINDOWS} windows in one page")
    return range(first, last + 1)


def run(args):
    status = 0
    try:
        plan = read(args.plan.text)
    except Refused as refused:
        print("\n".join(refusal_lines(args.plan.name, refused)), file=sys.stderr)
        written, status = refused_page(args.plan.name, refused, args.plan.text), 1
    else:
        if args.windows is not None and args.windows[-1] >= plan.windows_total:
            print(f"pirkvezo report: --windows: the run has windows 0 to {plan.windows_total - 1}",
                  file=sys.stderr)
            return 2
        written = page(args.plan.name, plan, args.log_length, args.windows,
                       [_worded(w) for w in warnings(plan)])
    return _write(args, written) or status


def _worded(warning):
    return warning.words if warning.line is None else f"line {warning.line}: {warning.words}"


def _write(args, written):
    """Writes the page; 2 with a line where that fails."""
    data = written.encode("utf-8")
    try:
        if args.output == "-":
            sys.stdout.buffer.write(data)
            sys.stdout.buffer.flush()
            return 0
        if _holds(args.output, args.plan.text):
            print(f"pirkvezo report: {shown_name(args.output)}: is the plan itself",
                  file=sys.stderr)
            return 2
        with open(args.output, "wb") as out:
            out.write(data)
    except BrokenPipeError:
        raise
    except OSError as why:
        print(f"pirkvezo report: {shown_name(args.output)}: {(why.strerror or str(why)).lower()}",
              file=sys.stderr)
        return 2
    print(f"{shown_name(args.output)}: {len(data)} bytes")
    return 0


def _holds(name, text):
    """Whether a regular file holds exactly the plan's text, so that no plan is overwritten."""
    if not text or not os.path.isfile(name) or os.path.getsize(name) != len(text):
        return False
    with open(name, "rb") as there:
        return there.read() == text
