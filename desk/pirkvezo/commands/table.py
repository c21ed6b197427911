"""table: the share table and the windows, laid out."""
import json

from ..advice import KERNEL_COLOUR
from ..inputs import plan_file, print_refused
from ..layout import columns, count, ranges, signed, squares
from ..plans import read
from ..refusals import Refused
from ..shares import COLOURS, SHARES, least_share, rounded

NAME = "table"
HELP = "lay out a plan's share table, windows and ticks"
EXAMPLE = """example:
  pirkvezo table examples/worked_example.plan"""


def add_arguments(parser):
    parser.add_argument("plan", metavar="PLAN", type=plan_file, help="a plan's file, or - for standard input")
    parser.add_argument("--json", action="store_true", help="print JSON, for programs")


def run(args):
    try:
        plan = read(args.plan.text)
    except Refused as refused:
        return print_refused(args, refused)
    made = table(plan)
    if args.json:
        print(json.dumps(dict(file=args.plan.name, refusal=None, **made), indent=2))
    else:
        print("\n".join(table_lines(args.plan.name, plan, made)))
    return 0


def table(plan):
    """The share table, the windows of one round and the ticks, as values."""
    domains = []
    for domain in range(plan.domains):
        colours = plan.colours(domain)
        owned = [window for window in plan.windows if window.owner == domain]
        domains.append(dict(
            domain=domain, share=plan.shares[domain], may=list(plan.recipients[domain]), colours=colours,
            sets=[4 * colour + way for colour in colours for way in range(4)],
            lines=256 * len(colours), holding=plan.holding(domain),
            # thousandths: of a colour that rounding gave (or took, below 0), and of the share that gave nothing
            rounded=rounded(plan.shares[domain], len(colours)),
            spare=plan.shares[domain] - least_share(len(colours)),
            windows=plan.run * len(owned), ticks_sold=plan.run * sum(window.length for window in owned),
            ticks_padded=plan.run * len(owned) * plan.pad))
    let = [sum(colour in entry["colours"] for entry in domains) for colour in range(16)]
    return dict(
        pad=plan.pad, run=plan.run, domains=domains, let=let,
        unsold=[colour for colour in range(16) if colour != KERNEL_COLOUR and not let[colour]],
        windows=[dict(window=k, domain=window.owner, start=plan.window_start(k), length=window.length,
                      end=plan.window_end(k), padded_end=plan.window_start(k + 1))
                 for k, window in enumerate(plan.windows)],
        windows_total=plan.windows_total, ticks_total=plan.ticks_total)


def table_lines(name, plan, made):
    """The table for people."""
    domains, twice = made["domains"], [c for c in range(16) if made["let"][c] > 1]
    held = sum(made["let"])
    lines = [name, "", "Shares"]
    lines += columns(
        ["domain", "share", "holding", "colours", "squares", "sets", "lines", "rounded", "spare",
         "may send to"],
        [[entry["domain"], entry["share"], entry["holding"], ranges(entry["colours"]),
          squares(entry["colours"]), ranges(entry["sets"]), entry["lines"],
          signed(entry["rounded"]), entry["spare"], ranges(entry["may"])] for entry in domains]
        + [["all", sum(plan.shares), held, "", "", "", sum(entry["lines"] for entry in domains),
            signed(sum(entry["rounded"] for entry in domains)), sum(entry["spare"] for entry in domains), ""]],
        left=["colours", "squares", "sets", "may send to"])
    lines += [
        "holding: colours held. lines: how many of the lines 0 to 4095 the domain may touch, those with",
        f"(line mod 64) in its sets. rounded: colours held minus share * {COLOURS} / {SHARES}, what rounding",
        "gave (+) or took (-). spare: by how much the share could be smaller and give as many colours."]
    lines += ["", f"Unsold colours: {ranges(made['unsold'])}. Colour {KERNEL_COLOUR} is the kernel's."]
    if twice or made["let"][KERNEL_COLOUR]:
        lines.append(f"Counted colour by colour: WRONG, let twice or the kernel's: {ranges(twice)}.")
    else:
        lines.append(f"Counted colour by colour: no colour is let twice; {held} let, "
                     f"{len(made['unsold'])} unsold, 1 the kernel's, {held + len(made['unsold']) + 1} in all.")
    lines += ["", f"Windows of one round ({count(plan.run, 'round')})"]
    lines += columns(
        ["window", "domain", "start", "length", "end", "pad", "next start"],
        [[window["window"], window["domain"], window["start"], window["length"], window["end"],
          plan.pad, window["padded_end"]] for window in made["windows"]])
    if plan.run > 1:
        lines.append(f"Each round starts {plan.window_start(len(plan.windows))} ticks after the one before.")
    lines += ["", "Ticks of the whole run"]
    lines += columns(
        ["domain", "windows", "sold", "pads", "together"],
        [[entry["domain"], entry["windows"], entry["ticks_sold"], entry["ticks_padded"],
          entry["ticks_sold"] + entry["ticks_padded"]] for entry in domains]
        + [["all", made["windows_total"], sum(entry["ticks_sold"] for entry in domains),
            sum(entry["ticks_padded"] for entry in domains), made["ticks_total"]]])
    return lines
