"""The command line. A command is a module of pirkvezo/commands with NAME, HELP,
add_arguments(parser) and run(args) -> exit status; perhaps EXAMPLE for its help, and
wrong_together(args) -> what is wrong with arguments that each are good, or None."""
import argparse
import importlib
import os
import pkgutil
import sys

from . import build, commands
from .library import Fault, LibraryMissing
from .refusals import Refused

ABOUT = """Check, see, compare, write and report plans, bound their runs and how late a domain can finish,
and make their windows by weights.

All that decides anything (verdict, masks, clocks, records, bounds, latest finishes, frames,
canonical texts) comes from the proved library. What is around it only words, lays out and draws,
and is not proved.
"""
EXIT = """exit status: 0 done, 1 a plan or a frame was refused, 2 bad arguments, a file that cannot be
read or written, or a library that cannot be built or is at fault"""


class Parser(argparse.ArgumentParser):
    """Says what is wrong with arguments in one line."""

    def __init__(self, *given, **options):
        super().__init__(*given, formatter_class=argparse.RawDescriptionHelpFormatter,
                         allow_abbrev=False, **options)

    def error(self, message):
        self.exit(2, f"{self.prog}: {' '.join(message.split())} (see {self.prog} --help)\n")


def modules():
    """The command modules, by name."""
    found = (importlib.import_module(f"{commands.__name__}.{module.name}")
             for module in pkgutil.iter_modules(commands.__path__))
    return sorted(found, key=lambda module: module.NAME)


def parser():
    top = Parser(prog="pirkvezo", description=ABOUT, epilog=EXIT)
    chosen = top.add_subparsers(metavar="COMMAND", dest="command")
    for module in modules():
        example = getattr(module, "EXAMPLE", None)
        sub = chosen.add_parser(module.NAME, help=module.HELP, description=module.HELP,
                                epilog="\n\n".join(filter(None, [example, EXIT])), prog=f"pirkvezo {module.NAME}")
        module.add_arguments(sub)
        sub.set_defaults(run_command=module.run, parser=sub,
                         wrong_together=getattr(module, "wrong_together", lambda args: None))
    return top


def parsed(arguments):
    """The arguments; an exit with one line where one of them is bad, or all of them together are."""
    top = parser()
    args = top.parse_args(arguments)
    if not args.command:
        top.error("a command is missing: " + ", ".join(module.NAME for module in modules()))
    wrong = args.wrong_together(args)
    if wrong:
        args.parser.error(wrong)
    return args


def main(arguments=None):
    """Runs the command line; the exit status."""
    if sys.stdout is None:
        return _fail("standard output is closed")
    if sys.stderr is None:
        # print would take standard output in its place
        sys.stderr = open(os.devnull, "w")
    for stream in (sys.stdout, sys.stderr):
        if hasattr(stream, "reconfigure"):
            stream.reconfigure(errors="backslashreplace")
    try:
        status = _main(arguments)
        sys.stdout.flush()
        return status
    except BrokenPipeError:
        # whoever read has gone: nothing is left to say, and nothing more to flush
        os.dup2(os.open(os.devnull, os.O_WRONLY), 1)
        return 2
    except OSError as why:
        os.dup2(os.open(os.devnull, os.O_WRONLY), 1)
        return _fail(f"cannot write or read: {(why.strerror or str(why)).lower()}")


def _main(arguments):
    try:
        args = parsed(arguments)
    except SystemExit as left:
        return left.code
    try:
        build.ensure()
        return args.run_command(args)
    except (LibraryMissing, build.CannotBuild, Fault) as why:
        return _fail(str(why))
    except Refused as why:
        # a command says itself what it was asked for in vain; this is a call that none of them expects to fail
        return _fail(f"the library refused a call: {why}")
    except MemoryError:
        return _fail("not enough memory")
    except KeyboardInterrupt:
        return _fail("stopped", 130)


def _fail(message, status=2):
    if sys.stderr is not None:
        print(f"pirkvezo: {message}", file=sys.stderr)
    return status
