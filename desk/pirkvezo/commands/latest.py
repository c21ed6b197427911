"""latest: how late each domain can finish a window, what that leaves of the pad, and a script that does so."""
import json
import sys

from ..frames import MOST_NUMBER
from ..inputs import number_of, plan_file, print_refused, refusal_lines, refusal_values
from ..layout import columns
from ..plans import NO_LATEST, Latest, read
from ..refusals import DOMAIN, LATEST_LENGTH, Refused

NAME = "latest"
HELP = "say how late each domain can finish a window, and what that leaves of the pad"
EXAMPLE = f"""example:
  pirkvezo latest examples/late_finish.plan
  pirkvezo latest examples/late_finish.plan 0 --script

The plan alone decides: no script is looked at. The domain needs a window, and each of its windows
{LATEST_LENGTH.low} to {LATEST_LENGTH.high} ticks. Of several domains, one that is refused is listed with its cause.

exit status of latest: 1 also where the DOMAIN that is named is refused; 0 and 2 as below"""


def add_arguments(parser):
    parser.add_argument("plan", metavar="PLAN", type=plan_file,
                        help="a plan's file, or - for standard input")
    # which domains there are is the library's to say
    parser.add_argument("domain", metavar="DOMAIN", nargs="?",
                        type=number_of(0, MOST_NUMBER, due=f"a number from {DOMAIN.low} to {DOMAIN.high}"),
                        help="the domain; all that the plan declares where none is given")
    form = parser.add_mutually_exclusive_group()
    form.add_argument("--script", action="store_true",
                      help="op lines alone, for a plan: a script whose first window finishes so late")
    form.add_argument("--json", action="store_true", help="print JSON, for programs")


def run(args):
    # not on standard output, where that may become a plan
    stream = sys.stderr if args.script else None
    try:
        plan = read(args.plan.text)
    except Refused as refused:
        return print_refused(args, refused, stream)
    try:
        found = plan.latest_of_each if args.domain is None else [plan.latest(args.domain)]
    except Refused as refused:
        if refused.number != NO_LATEST:
            raise
        return print_refused(args, refused, stream)
    if args.json:
        made = dict(file=args.plan.name, refusal=None, pad=plan.pad, domains=values(plan, found))
        print(json.dumps(made, indent=2))
    elif args.script:
        _print_scripts(args.plan.name, found)
    else:
        print("\n".join(latest_lines(args.plan.name, plan, found)))
    return 0


def values(plan, found):
    """The latest finish of each domain, or why it is refused, as values."""
    return [dict(domain=one.domain, ticks=one.ticks, left=plan.pad - one.ticks, script=one.lines, refusal=None)
            if isinstance(one, Latest) else
            # the companion of this refusal is the domain
            dict(domain=one.companion, ticks=None, left=None, script=None, refusal=refusal_values(one))
            for one in found]


def latest_lines(name, plan, found):
    """The latest finishes for people."""
    told = [one for one in found if isinstance(one, Latest)]
    heads = ["domain", "at most", "left"] + (["refused"] if len(told) < len(found) else [])
    rows = [[one.domain, one.ticks, plan.pad - one.ticks, ""] if isinstance(one, Latest) else
            [one.companion, "-", "-", _cause(one)] for one in found]
    lines = [f"{name}: how late a window can finish, of a pad of {plan.pad} ticks", ""]
    lines += columns(heads, [row[:len(heads)] for row in rows], left=["refused"])
    if told:
        lines += [
            "at most: ticks from a window's end until the switch has emptied L1 and touched line 60, touch",
            "counted, in every run from a fresh start and whatever any script holds. left: what no script of",
            "the domain uses of the pad. --script prints scripts that take so long, each in its domain's",
            "first window."]
    return lines


def _cause(refused):
    where = "" if refused.line is None else f"line {refused.line}: "
    return f"{where}{refused.words} [{refused.number}]"


def _print_scripts(name, found):
    for one in found:
        if isinstance(one, Latest):
            print("\n".join(one.lines))
        else:
            print("\n".join(refusal_lines(name, one)), file=sys.stderr)
