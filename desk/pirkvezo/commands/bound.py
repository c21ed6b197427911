"""bound: how many steps a plan's run can take at most, and of what that is made up."""
import json

from ..inputs import plan_file, print_refused
from ..layout import columns, count
from ..plans import read
from ..refusals import Refused

NAME = "bound"
HELP = "say how many steps a plan's run can take at most: a limit that always suffices"
EXAMPLE = """example:
  pirkvezo bound examples/worked_example.plan

A step is an op or a switch. The bound is for a run from its fresh start to its end."""


def add_arguments(parser):
    parser.add_argument("plan", metavar="PLAN", type=plan_file,
                        help="a plan's file, or - for standard input")
    parser.add_argument("--json", action="store_true", help="print JSON, for programs")


def run(args):
    try:
        plan = read(args.plan.text)
    except Refused as refused:
        return print_refused(args, refused)
    found = values(plan)
    if args.json:
        print(json.dumps(dict(file=args.plan.name, refusal=None, **found), indent=2))
    else:
        print("\n".join(bound_lines(args.plan.name, found)))
    return 2 if found["faults"] else 0


def values(plan):
    """The bound, which is the library's, and its parts as the plan has them."""
    ops = [len(plan.ops(domain)) for domain in range(plan.domains)]
    found = dict(bound=plan.bound, ops=sum(ops), windows=len(plan.windows), run=plan.run,
                 switches=plan.windows_total,
                 domains=[dict(domain=domain, ops=number) for domain, number in enumerate(ops)])
    return dict(found, faults=_faults(found))


def _faults(found):
    if found["ops"] + found["switches"] == found["bound"]:
        return []
    # proved not to happen: said so that a fault of the desk itself cannot pass unseen
    return [f"{_sum(found)}, and the library says {found['bound']}"]


def _sum(found):
    ops, switches = found["ops"], found["switches"]
    noun = "switch" if switches == 1 else "switches"
    return f"{count(ops, 'op')} and {switches} {noun} make {count(ops + switches, 'step')}"


def bound_lines(name, found):
    """The bound for people."""
    lines = [f"{name}: a run takes at most {count(found['bound'], 'step')}"]
    if not found["faults"]:
        lines.append("A limit that always suffices: a run with it ends, however long its log is.")
    lines += [""] + columns(
        ["domain", "ops stored"],
        [[entry["domain"], entry["ops"]] for entry in found["domains"]] + [["all", found["ops"]]])
    lines += ["ops stored: also those that the run never reaches, so it may take fewer steps."]
    windows, rounds = count(found["windows"], "window"), count(found["run"], "round")
    return lines + ["", f"Switches: {windows} x {rounds} = {found['switches']}",
                    f"Added up: {_added(found)}."]


def _added(found):
    if found["faults"]:
        return f"WRONG, {'; '.join(found['faults'])}"
    return f"{_sum(found)}, as the library says"
