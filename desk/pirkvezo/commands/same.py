"""same: whether two files are the same plan with the same scripts, and if not, the first lines that differ."""
import dataclasses
import json
import sys

from ..canonical import differences
from ..inputs import plan_file, refusal_lines, refusal_values
from ..layout import count
from ..library import Fault
from ..plans import read
from ..refusals import Refused

NAME = "same"
HELP = "say whether two files are the same plan with the same scripts, however each is spelled"
EXAMPLE = """example:
  pirkvezo same monday.plan tuesday.plan

Files are the same where their canonical texts are equal (pirkvezo write prints those).

exit status of same: 0 the same, 3 not the same, 1 and 2 as below"""
MOST_SHOWN = 4


def add_arguments(parser):
    parser.add_argument("a", metavar="A", type=plan_file, help="a plan's file, or - for standard input")
    parser.add_argument("b", metavar="B", type=plan_file, help="the plan to hold it to")
    parser.add_argument("--json", action="store_true", help="print JSON, for programs")


def run(args):
    plans, refused = {}, {}
    for side, file in (("a", args.a), ("b", args.b)):
        try:
            plans[side] = read(file.text)
        except Refused as why:
            refused[side] = why
    if refused:
        return _refused(args, refused)
    same, found = compared(plans["a"], plans["b"])
    if args.json:
        _print_json(args, refusal=None, same=same, differences=list(map(dataclasses.asdict, found)))
    else:
        print(f"A: {args.a.name}\nB: {args.b.name}")
        print("\n".join(lines(same, found)))
    return 0 if same else 3


def compared(a, b):
    """Whether two plans' canonical texts are equal, and the lines in which they differ."""
    one, other = a.canonical, b.canonical
    if (one == other) != ((a.numbers, a.scripts) == (b.numbers, b.scripts)):
        # proved not to happen: said so that a fault of the desk itself cannot pass unseen
        raise Fault("THIS MUST NOT HAPPEN: canonical texts are equal where plans or scripts are not, or the "
                    "other way round. It is proved that they agree, so the desk or its library is at fault.")
    return one == other, differences(one, other)


def _refused(args, refused):
    """Says of each refused file why; the exit status."""
    if args.json:
        told = {side: refusal_values(why) for side, why in refused.items()}
        _print_json(args, refusal=dict(dict(a=None, b=None), **told))
    else:
        for side, why in refused.items():
            print("\n".join(refusal_lines(getattr(args, side).name, why)), file=sys.stderr)
    return 1


def _print_json(args, **said):
    print(json.dumps(dict(a=args.a.name, b=args.b.name, **said), indent=2))


def lines(same, found):
    """The verdict for people, the first few differences, and how many more there are."""
    if same:
        return ["The same plan with the same scripts."]
    said = [f"Not the same: the canonical texts differ in {count(len(found), 'line')}."]
    for difference in found[:MOST_SHOWN]:
        said += ["", difference.about, f"  A: {_line(difference.a)}", f"  B: {_line(difference.b)}"]
    if len(found) > MOST_SHOWN:
        said += ["", f"And {len(found) - MOST_SHOWN} more."]
    return said


def _line(line):
    return "has none" if line is None else f"line {line.number}: {line.text}"
