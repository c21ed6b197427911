"""check: accepted with warnings, or refused with line, cause and fix."""
import json

from ..advice import warnings
from ..inputs import plan_file, refusal_lines, refusal_values
from ..layout import count
from ..plans import read
from ..refusals import Refused

NAME = "check"
HELP = "say whether plans are accepted; if not, where, why and what would fix it"
EXAMPLE = """example:
  pirkvezo check examples/oversold.plan
  pirkvezo check --json examples/*.plan"""


def add_arguments(parser):
    parser.add_argument("plans", metavar="PLAN", nargs="+", type=plan_file,
                        help="a plan's file, or - for standard input")
    parser.add_argument("--json", action="store_true", help="print a JSON list, for programs")


def run(args):
    said = [verdict(plan) for plan in args.plans]
    if args.json:
        print(json.dumps([values for values, _ in said], indent=2))
    else:
        for _, lines in said:
            print("\n".join(lines))
    return 0 if all(values["accepted"] for values, _ in said) else 1


def verdict(file):
    """What is said of one plan: values for programs, and lines for people."""
    try:
        plan = read(file.text)
    except Refused as refused:
        return dict(file=file.name, accepted=False, refusal=refusal_values(refused), warnings=[]), \
            refusal_lines(file.name, refused)
    found = warnings(plan)
    lines = [f"{file.name}: accepted: {count(plan.domains, 'domain')}, "
             f"{count(plan.windows_total, 'window')}, {count(plan.ticks_total, 'tick')}"]
    for warning in found:
        where = "" if warning.line is None else f"{warning.line}:{warning.column}:"
        lines.append(f"{file.name}:{where} warning: {warning.words}")
    return dict(file=file.name, accepted=True, refusal=None, warnings=[vars(w) for w in found]), lines
