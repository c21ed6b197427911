"""write: the canonical text of a plan, on standard output or in the file's place; or whether the file has it."""
import argparse
import json
import sys

from ..canonical import departure
from ..inputs import plan_file, print_refused
from ..plans import read
from ..refusals import Refused
from ..rewrite import CannotRewrite, rewrite

NAME = "write"
HELP = "write a plan's canonical text: the one text for all that give this plan with these scripts"
EXAMPLE = """example:
  pirkvezo write examples/worked_example.plan
  pirkvezo write --check examples/worked_example.plan
  pirkvezo write --in-place monday.plan

The canonical text has no line feed at its end, and standard output gets exactly its bytes.

exit status of write --check: 0 the file is canonical, 3 it is not, 1 and 2 as below"""


class NotStandardInput(argparse.Action):
    """Stores an argument. Standard input cannot be rewritten, which is said before anything is built."""

    def __call__(self, parser, namespace, values, option_string=None):
        setattr(namespace, self.dest, True if option_string else values)
        if namespace.in_place and namespace.plan is not None and namespace.plan.path is None:
            raise argparse.ArgumentError(None, "--in-place rewrites a file, and standard input is none")


def add_arguments(parser):
    parser.add_argument("plan", metavar="PLAN", type=plan_file, action=NotStandardInput,
                        help="a plan's file, or - for standard input")
    form = parser.add_mutually_exclusive_group()
    form.add_argument("--check", action="store_true",
                      help="say in one line whether the file is canonical already, and if not, where")
    form.add_argument("--in-place", action=NotStandardInput, nargs=0, default=False,
                      help="put the canonical text in the file's place, in one step or not at all")
    form.add_argument("--json", action="store_true", help="print JSON, for programs")


def run(args):
    try:
        plan = read(args.plan.text)
    except Refused as refused:
        # not on standard output, which may become a plan
        return print_refused(args, refused, sys.stderr)
    canonical = plan.canonical
    if args.check:
        return _check(args.plan, canonical)
    if args.in_place:
        return _in_place(args.plan, canonical)
    if args.json:
        print(json.dumps(dict(file=args.plan.name, refusal=None, **values(args.plan.text, canonical)), indent=2))
    else:
        # as bytes, so that no setting of the terminal changes one
        sys.stdout.buffer.write(canonical)
        sys.stdout.buffer.flush()
    return 0


def values(text, canonical):
    """The canonical text of a plan for programs, and whether the text that was read is that one."""
    return dict(canonical=text == canonical, bytes=len(canonical), text=canonical.decode("ascii"))


def _check(file, canonical):
    found = departure(file.text, canonical)
    if found is None:
        print(f"{file.name}: canonical")
        return 0
    print(f"{file.name}:{found.line}:{found.column}: not canonical: {found.words}")
    return 3


def _in_place(file, canonical):
    if file.text == canonical:
        print(f"{file.name}: canonical already, and left as it is")
        return 0
    try:
        rewrite(file.path, file.text, canonical)
    except CannotRewrite as why:
        print(f"pirkvezo write: {file.name}: {why}; the file is as it was", file=sys.stderr)
        return 2
    print(f"{file.name}: canonical now, {len(canonical)} bytes in place of {len(file.text)}")
    return 0
