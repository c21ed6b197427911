"""compare: what each domain saw in the runs of two plans, and what crossed to it."""
import json
import sys

from ..compare import LOG_LENGTH, compare
from ..inputs import number_of, plan_file, refusal_lines, refusal_values
from ..layout import count, ranges
from ..plans import read
from ..refusals import Refused

NAME = "compare"
HELP = "run two plans, and say for each domain whether it saw the same and what crossed to it"
EXAMPLE = """example:
  pirkvezo compare monday.plan tuesday.plan

exit status of compare: 0 every domain saw the same, 3 some domain did not, 1 and 2 as below"""
MOST_CROSSINGS = 8


def add_arguments(parser):
    parser.add_argument("a", metavar="A", type=plan_file,
                        help="a plan's file, or - for standard input")
    parser.add_argument("b", metavar="B", type=plan_file, help="the plan to compare it with")
    parser.add_argument("--log-length", metavar="BYTES", default=LOG_LENGTH,
                        type=number_of(0, 1 << 24),
                        help="the log of each run (default 16384)")
    parser.add_argument("--windows", metavar="N", type=number_of(0, 32000),
                        help="end both runs after N windows")
    parser.add_argument("--json", action="store_true", help="print JSON, for programs")


def run(args):
    plans = []
    for file in (args.a, args.b):
        try:
            plans.append(read(file.text))
        except Refused as refused:
            if args.json:
                print(json.dumps({"file": file.name, "refusal": refusal_values(refused)}, indent=2))
            else:
                print("\n".join(refusal_lines(file.name, refused)), file=sys.stderr)
            return 1
    found = compare(*plans, args.log_length, args.windows)
    if args.json:
        named = {"a": args.a.name, "b": args.b.name, "refusal": None}
        print(json.dumps({**named, **values(found)}, indent=2))
    else:
        print(f"A: {args.a.name}\nB: {args.b.name}")
        print("\n".join(lines(found)))
    return 0 if found.all_same else 3


def lines(found):
    """The comparison for people."""
    out = _heading(found) + [""]
    for domain in found.domains:
        out += _domain(found, domain)
    for plan, domain in found.only:
        out.append(f"domain {domain}: only {plan} has it")
    return out + ["", _verdict(found)]


def _heading(found):
    if found.beyond:
        head = "The plans differ in more than scripts, so the promise does not cover this pair:"
        return [head] + [f"  {words}" for words in found.beyond] + _scripts(found)
    if not found.scripts:
        return ["The two plans say the same, scripts and all."]
    return ["The plans differ in scripts alone, so the promise covers this pair."] + _scripts(found)


def _scripts(found):
    if not found.scripts:
        return ["Every domain's script is the same in both."]
    several = len(found.scripts) > 1
    return [f"Scripts that differ: domain{'s' if several else ''} {ranges(found.scripts)}."]


def _domain(found, domain):
    name = f"domain {domain.domain}: "
    if domain.same:
        out = [f"{name}sees the same, {count(domain.records[0], 'record')}"]
    else:
        first = domain.first
        out = [f"{name}sees a difference, first in record {first.number}",
               f"  A: {_seen(first.a)}", f"  B: {_seen(first.b)}"]
    if not domain.script:
        out.append("  its own script differs, so the promise does not speak of it")
    for crossing in domain.crossed[:MOST_CROSSINGS]:
        out.append(f"  crossed: the box from domain {crossing.sender}, when window "
                   f"{crossing.window} began at {crossing.start}: {_box(crossing.a)} in A, "
                   f"{_box(crossing.b)} in B")
    rest = len(domain.crossed) - MOST_CROSSINGS
    if rest > 0:
        out.append(f"  and {count(rest, 'difference')} more of boxes at later starts")
    if domain.same and domain.crossed:
        out.append("  what crossed changed nothing that it saw")
    return out


def _seen(seen):
    if seen is None:
        return "no record"
    return f"window {seen.window}, op {seen.index} of it: {seen.record} at {seen.record.clock}"


def _box(word):
    return "empty" if word is None else f"word {word}"


def _verdict(found):
    if found.broken():
        # proved not to happen: said so that a fault of the desk itself cannot pass unseen
        bad = ranges([d.domain for d in found.broken()])
        return (f"THIS MUST NOT HAPPEN: domain {bad} saw a difference before any box differed. The "
                "promise is proved, so the desk or its library is at fault.")
    if found.beyond:
        return "The promise is about one plan with two sets of scripts; it is silent on this pair."
    rivals = [d for d in found.domains if d.script]
    if all(d.same for d in rivals):
        return "Every domain whose own script is the same sees the same."
    return "Each difference beyond a domain's own script came through a box addressed to it."


def values(found):
    """The comparison for programs."""
    def seen(s):
        return None if s is None else {"window": s.window, "op": s.index, "position": s.position,
                                       "kind": s.record.kind, "value": s.record.value,
                                       "clock": s.record.clock}
    return {
        "covered": not found.beyond, "beyond_scripts": list(found.beyond),
        "scripts_differ": list(found.scripts), "all_same": found.all_same,
        "only": [{"plan": plan, "domain": domain} for plan, domain in found.only],
        "domains": [{
            "domain": d.domain, "same": d.same, "script_same": d.script, "records": list(d.records),
            "first_difference": None if d.same else {
                "record": d.first.number, "a": seen(d.first.a), "b": seen(d.first.b)},
            "crossed": [vars(c) for c in d.crossed],
        } for d in found.domains],
    }
