"""frame: the windows of a plan by weights, and what each domain gets and why."""
import argparse
import json
import sys

from ..frames import DOMAINS, MOST_NUMBER, frame
from ..inputs import number_of, refusal_lines, refusal_values
from ..layout import columns, count
from ..refusals import COUNT, LENGTH, WEIGHT, Refused

NAME = "frame"
HELP = "make the windows of a plan by weights, and show what each domain gets and why"
# round, with time for several misses (100 ticks each) or sends (205 at first in the run, 106 in a
# later window), and long beside the least pad (376); with it even 32 windows and the longest run stay
# far below a plan's most ticks
DEFAULT_LENGTH = 1000
EXAMPLE = f"""example:
  pirkvezo frame 7 3 2 2
  pirkvezo frame 32 500 300 150 50 --length 600 --lines >> monday.plan

Window lines come first, then a table. With --lines nothing else is printed, so that they can go
straight into a plan. All windows get one length, {DEFAULT_LENGTH} ticks without --length."""


class Weights(argparse.Action):
    """The weights; more than there are domains are bad arguments, said before anything is built."""

    def __call__(self, parser, namespace, values, option_string=None):
        if len(values) > DOMAINS:
            raise argparse.ArgumentError(
                self, f"at most {DOMAINS} are due, one a domain, and these are {len(values)}")
        setattr(namespace, self.dest, values)


def add_arguments(parser):
    parser.add_argument("count", metavar="COUNT", help=f"how many windows, {COUNT.low} to {COUNT.high}",
                        type=_judged_by_the_library(COUNT))
    parser.add_argument("weights", metavar="WEIGHT", nargs="+", action=Weights,
                        type=_judged_by_the_library(WEIGHT),
                        help=f"weights of domain 0, 1, 2 .., each {WEIGHT.low} to {WEIGHT.high}; at most "
                        f"{DOMAINS}, and 0 for those not given")
    parser.add_argument("--length", metavar="TICKS", default=DEFAULT_LENGTH,
                        type=number_of(LENGTH.low, LENGTH.high),
                        help=f"the length of every window ({DEFAULT_LENGTH})")
    form = parser.add_mutually_exclusive_group()
    form.add_argument("--lines", action="store_true", help="the window lines alone, for a plan")
    form.add_argument("--json", action="store_true", help="print JSON, for programs")


def _judged_by_the_library(number):
    """The type of a number that goes to the library as it is: its limits are only asked for here."""
    return number_of(0, MOST_NUMBER, due=f"a number from {number.low} to {number.high}")


def run(args):
    try:
        made = frame(args.count, args.weights)
    except Refused as refused:
        if args.json:
            print(json.dumps(dict(count=args.count, weights=args.weights,
                                  refusal=refusal_values(refused)), indent=2))
        else:
            # not on standard output, which may be a plan
            print("\n".join(refusal_lines("pirkvezo frame", refused)), file=sys.stderr)
        return 1
    found = values(made, len(args.weights), args.length)
    lines = [str(window) for window in made.windows(args.length)]
    if args.json:
        print(json.dumps(dict(count=args.count, weights=args.weights, refusal=None, **found), indent=2))
    elif not args.lines:
        print("\n".join(lines + [""] + table_lines(found)))
    elif not found["faults"]:
        print("\n".join(lines))
    else:
        # lines that are wrong must not come into a plan
        print(f"pirkvezo frame: {_counted(found)}", file=sys.stderr)
    return 2 if found["faults"] else 0


def values(made, given, length):
    """The windows, and what each of the given domains gets and why, as values."""
    return dict(
        length=length, total=made.total,
        windows=[dict(window=k, domain=owner, length=length) for k, owner in enumerate(made.owners)],
        # a remainder is in parts of which `total` make a window
        domains=[dict(domain=domain, weight=made.weights[domain],
                      quota=f"{made.count * made.weights[domain]}/{made.total}",
                      whole=made.whole(domain), remainder=made.remainder(domain), got=made.got(domain))
                 for domain in range(given)],
        faults=made.faults())


def table_lines(found):
    """What each domain gets and why, for people."""
    total, domains, windows = found["total"], found["domains"], len(found["windows"])
    whole, remainder, got = (sum(entry[name] for entry in domains) for name in ("whole", "remainder", "got"))
    lines = columns(
        ["domain", "weight", "quota", "whole part", "remainder", "windows got"],
        [[entry["domain"], entry["weight"], entry["quota"], entry["whole"],
          f"{entry['remainder']}/{total}", entry["got"]] for entry in domains]
        + [["all", total, f"{windows * total}/{total}", whole, f"{remainder}/{total}", got]])
    lines += [
        f"quota: weight / {total} of {count(windows, 'window')}. What the whole parts leave goes out one by one,",
        "to the largest remainders, and among equal ones to the lowest domains."]
    return lines + ["", _counted(found)]


def _counted(found):
    if found["faults"]:
        # proved not to happen: said so that a fault of the desk itself cannot pass unseen
        return f"Counted window by window: WRONG, {'; '.join(found['faults'])}."
    return ("Counted window by window: every domain has its whole part or one more, in turns; "
            f"{len(found['windows'])} in all.")
