"""run: what each domain saw, or what one of them saw, as planrun prints it, as a table, as CSV or as JSON."""
import collections
import csv
import json
import os
import sys

from ..frames import MOST_NUMBER
from ..history import history_of
from ..inputs import number_of, plan_file, refusal_lines, refusal_values
from ..layout import columns, count
from ..plans import read
from ..refusals import DOMAIN, NO_DOMAIN, Refused
from ..worlds import MOST_LOG, MOST_PART, RECORD_KINDS, KeptWorld, World

NAME = "run"
HELP = "run a plan and print what each domain saw, or what one of them saw"
LOG_LENGTH = 16384
EXAMPLE = """example:
  pirkvezo run examples/worked_example.plan
  pirkvezo run --table --windows 1 examples/worked_example.plan
  pirkvezo run --only 1 --part 256 examples/worked_example.plan

Where a run is stopped by --windows, its last line is (stopped WINDOWS CLOCK) and not (end ..).
The steps done, and how many there are at most, are in the table and in the JSON. Beside the other
forms they go to standard error.

With --only one domain's log is kept and printed, and no other. --part is then due in the place of
--log-length: how many records each domain has room for, which is BYTES / (8 * domains). A domain
that has no room left goes idle, also one whose log is not kept. 256 are always enough.

exit status of run: 1 also where the DOMAIN of --only is refused; 0 and 2 as below"""


def add_arguments(parser):
    parser.add_argument("plan", metavar="PLAN", type=plan_file, help="a plan's file, or - for standard input")
    parser.add_argument("--log-length", metavar="BYTES", help=f"the log's bytes ({LOG_LENGTH})",
                        type=number_of(0, MOST_LOG))
    # which domains there are is the library's to say
    parser.add_argument("--only", metavar="DOMAIN", help="keep and print this domain's log alone; with --part",
                        type=number_of(0, MOST_NUMBER, due=f"a number from {DOMAIN.low} to {DOMAIN.high}"))
    parser.add_argument("--part", metavar="N", help="the records that each domain has room for; with --only",
                        type=number_of(0, MOST_PART))
    parser.add_argument("--windows", metavar="N", help="stop when N windows are completed",
                        type=number_of(0, 32000))
    form = parser.add_mutually_exclusive_group()
    form.add_argument("--table", action="store_true", help="for people: by domain, with windows and sums")
    form.add_argument("--csv", action="store_true", help="one line for each record")
    form.add_argument("--json", action="store_true", help="for programs")


def wrong_together(args):
    """What is wrong with arguments that each are good, or None."""
    if args.only is not None and args.part is None:
        return "--only needs --part, the number of records that each domain has room for"
    if args.part is not None and args.only is None:
        return "--part needs --only, the domain whose log is kept"
    if args.only is not None and args.log_length is not None:
        return "--log-length is for the log of all domains; with --only, --part says what has room"
    return None


def run(args):
    try:
        plan = read(args.plan.text)
    except Refused as refused:
        return _refused(args, refused)
    try:
        world = _fresh(plan, args)
    except Refused as refused:
        if refused.number != NO_DOMAIN:
            raise
        return _refused(args, refused)
    if args.table or args.csv or args.json:
        made = summary(world, args.windows)
        if args.json:
            print(json.dumps(dict(file=args.plan.name, refusal=None, **made), indent=2))
        elif args.csv:
            _csv(made)
            _note(f"{args.plan.name}: {_steps(made['steps'], made['bound'])}")
        else:
            print("\n".join(summary_lines(args.plan.name, made)))
        return 0
    ended = (world.run() if args.windows is None else world.run_windows(args.windows)).ended
    for domain in world.logged:
        for record in world.log(domain):
            print(f"(seen {domain} {record.clock} {record})")
    print(f"({'end' if ended else 'stopped'} {world.windows} {world.clock})")
    _note(f"{args.plan.name}: {_steps(world.steps, plan.bound)}")
    return 0


def _fresh(plan, args):
    """The run at its fresh start, with the log of all domains or of one."""
    if args.only is not None:
        return KeptWorld.fresh(plan, args.only, args.part)
    return World.fresh(plan, LOG_LENGTH if args.log_length is None else args.log_length)


def _steps(steps, bound):
    return f"{count(steps, 'step')} of at most {bound}"


def _note(line):
    """A line beside output that has a form of its own; it comes once all of that is written."""
    sys.stdout.flush()
    try:
        print(line, file=sys.stderr, flush=True)
    except OSError:
        # the run is no worse for it; and nothing is left that Python would try to write at its end
        os.dup2(os.open(os.devnull, os.O_WRONLY), 2)


def _refused(args, refused):
    words = "\n".join(refusal_lines(args.plan.name, refused))
    if args.json:
        print(json.dumps(dict(file=args.plan.name, refusal=refusal_values(refused)), indent=2))
    elif args.table:
        print(words)
    else:
        if not args.csv:
            print(f"(refused {refused.number} {refused.companion})", flush=True)
        print(words, file=sys.stderr)
    return 1


def summary(world, windows=None):
    """What each domain saw whose log is kept, with window and index in it, and sums, as values."""
    plan, room, passed = world.plan, world.records_room, history_of(world, windows)
    domains = []
    for domain in world.logged:
        own = [window for window in passed if window.owner == domain]
        records = [dict(window=window.index, index=index, position=event.position,
                        begin=event.begin, clock=event.end, kind=event.record.kind,
                        value=event.record.value)
                   for window in own for index, event in enumerate(window.ops)]
        kinds = collections.Counter(record["kind"] for record in records)
        ops = plan.ops(domain)
        domains.append(dict(
            domain=domain, records=records, kinds={kind: kinds[kind] for kind in RECORD_KINDS},
            windows=len(own), ticks=sum(window.end - window.start for window in own),
            idle=sum(max(0, window.end - (window.ops[-1].end if window.ops else window.start))
                     for window in own),
            ops=len(ops), never_reached=[str(op) for op in ops[len(records):]],
            why=_why(plan, domain, len(records), room, len(passed)) if len(records) < len(ops) else None))
    clock = passed[-1].padded_end if passed else 0
    return dict(windows=len(passed), clock=clock, ended=len(passed) == plan.windows_total,
                steps=sum(window.steps for window in passed), bound=plan.bound, **_log(world),
                records_room=room, domains=domains)


def _log(world):
    """Which log is kept, as a value: that of all domains, by its bytes, or that of one, by the domain."""
    return dict(only=world.domain) if isinstance(world, KeptWorld) else dict(log_length=world.log_length)


def _why(plan, domain, done, room, passed):
    if done >= room:
        return "log full"
    if not any(window.owner == domain for window in plan.windows):
        return "no window"
    return "run over" if passed == plan.windows_total else "run stopped"


def summary_lines(name, made):
    """The summary for people."""
    state = "ended" if made["ended"] else "stopped"
    kept = f", and only domain {made['only']}'s are kept" if "only" in made else ""
    lines = [f"{name}: {state} after {count(made['windows'], 'window')} at tick {made['clock']}; "
             f"room for {count(made['records_room'], 'record')} a domain{kept}",
             _steps(made["steps"], made["bound"])]
    for entry in made["domains"]:
        lines += ["", f"Domain {entry['domain']}"]
        if entry["records"]:
            lines += columns(
                ["window", "index", "op", "begin", "clock", "saw"],
                [[record["window"], record["index"], record["position"], record["begin"],
                  record["clock"], f"({record['kind']} {record['value']})"] for record in entry["records"]],
                left=["saw"])
        left = entry["never_reached"]
        if left:
            shown = " ".join(left[:4]) + (" .." if len(left) > 4 else "")
            lines.append(f"never reached ({entry['why']}): {count(len(left), 'op')} of {entry['ops']}: {shown}")
        elif not entry["ops"]:
            lines.append("no ops")
    lines += ["", "Sums"]
    lines += columns(
        ["domain", "windows", "ticks", "idle", "ops done", "left"] + list(RECORD_KINDS),
        [[entry["domain"], entry["windows"], entry["ticks"], entry["idle"], len(entry["records"]),
          len(entry["never_reached"])] + [entry["kinds"][kind] for kind in RECORD_KINDS]
         for entry in made["domains"]])
    return lines


def _csv(made):
    rows = csv.writer(sys.stdout, lineterminator="\n")
    rows.writerow(["domain", "window", "index", "position", "begin", "clock", "kind", "value"])
    for entry in made["domains"]:
        for record in entry["records"]:
            rows.writerow([entry["domain"]] + [record[name] for name in
                          ("window", "index", "position", "begin", "clock", "kind", "value")])
