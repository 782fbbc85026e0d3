"""The words of the command line, and what is done by them."""
import argparse
import os
import pathlib
import signal
import sys
import time
from collections.abc import Callable

from soaking import planting
from soaking.parts import PARTS
from soaking.program import Program, program_at
from soaking.reporting import Account
from soaking.shrinking import SECONDS
from soaking.working import Report, Schedule, Workers, keep, one

TOP = pathlib.Path(__file__).resolve().parent.parent.parent
KEPT = TOP / "out" / "soak"
BUILT = TOP / "crates" / "ipbus" / "out" / "ipbus"
MINUTE = 60.0
ABOUT = """The same number draws the same case. With --only and --seed and without --minutes the case of that number alone
is tried. A case that differs is made as small as can be and left in a folder, out/soak/PART_NUMBER by default. Without
PROGRAM the proved one is tried. An unproved program is tried on all cases but those that take it minutes. The last line is
'N cases, M differed'; the lines before it say how often each rule, status, result, code and form of a line was met. The
status is 1 if a case differed, or no case met some form: the latter is no failure with --some or --only."""


def told() -> argparse.Namespace:
    parser = argparse.ArgumentParser(prog="checks/soak", description=ABOUT, epilog=f"The parts: {', '.join(PARTS)}.")
    parser.add_argument("program", nargs="?", type=pathlib.Path, help="a built program; without it the proved one")
    parser.add_argument("--minutes", type=float, help="how long cases are drawn (10)")
    parser.add_argument("--seed", type=int, help="the number of the first case of each part (1)")
    parser.add_argument("--only", choices=list(PARTS), metavar="PART", help="the cases of one part")
    parser.add_argument("--some", action="store_true", help="a form that no case met is no failure, as in a short run")
    parser.add_argument("--jobs", type=int, default=os.cpu_count() or 1, help="how many processes work (all)")
    parser.add_argument("--kept", type=pathlib.Path, default=KEPT, help="the folder for cases that differ")
    parser.add_argument("--planted", nargs="*", metavar="NAME", help="find planted bugs, all or those of these names")
    return parser.parse_args()


def is_one_case(options: argparse.Namespace) -> bool:
    return bool(options.only) and options.seed is not None and options.minutes is None


def try_one(options: argparse.Namespace, program: Program) -> int:
    """Tries the case of one number, and keeps it where it differs."""
    account = Account([options.only])
    began = time.monotonic()
    case, tried = one(options.only, options.seed, program)
    account.add(Report(options.only, options.seed, tried, time.monotonic() - began))
    if tried.way and case:
        print(f"kept in {keep(options.kept, options.only, options.seed, case, tried, program)}")
    print("; ".join(f"{form} {count}" for form, count in sorted(tried.met.items())))
    print(f"1 cases, {int(bool(tried.way))} differed")
    return int(bool(tried.way))


def soak(
    names: list[str],
    options: argparse.Namespace,
    program: Program,
    is_enough: Callable[[Account], bool] = lambda account: False,
) -> Account:
    """Draws and tries cases of these parts until the time is up, or it is enough."""
    account = Account(names)
    schedule = Schedule(names, 1 if options.seed is None else options.seed)
    workers = Workers(options.jobs, schedule, program, options.kept)
    waited: set[tuple[str, int]] = set()

    def take(report: Report) -> None:
        account.add(report)
        key = report.part, report.number
        (waited.discard if report.kept else waited.add if report.is_kept_later else waited.discard)(key)

    end = time.monotonic() + MINUTE * (options.minutes or 10)
    try:
        while (now := time.monotonic()) < end and not is_enough(account):
            for report in workers.until(min(end, now + MINUTE)):
                take(report)
                if is_enough(account):
                    break
            if not is_enough(account):
                print(account.line(), flush=True)
            if not workers.readers:
                break
        # those that differed are made small to their end
        last = time.monotonic() + 2 * SECONDS
        while waited and time.monotonic() < last and workers.readers and not is_enough(account):
            for report in workers.until(min(last, time.monotonic() + 1)):
                take(report)
                if not waited:
                    break
        lost = options.jobs - len(workers.readers)
        if lost:
            account.is_cut = True
            print(f"{lost} processes ended before the time, and their cases are lost: see what they said", flush=True)
    except KeyboardInterrupt:
        account.is_stopped = True
        print("stopped", flush=True)
    finally:
        workers.end()
    return account


def stop(_signal: int, _frame: object) -> None:
    """A request to end is as a control-C: what was found so far is said."""
    raise KeyboardInterrupt


def main() -> None:
    options = told()
    signal.signal(signal.SIGTERM, stop)
    if options.planted is not None:
        sys.exit(planting.find_all(options, soak))
    if options.program is None and not BUILT.exists():
        sys.exit(f"no proved program at {BUILT}: bin/prove builds it; or name a program")
    program = program_at((options.program or BUILT).resolve())
    if is_one_case(options):
        sys.exit(try_one(options, program))
    account = soak([options.only] if options.only else list(PARTS), options, program)
    print(account.end())
    are_all_wanted = not (options.some or options.only)
    sys.exit(account.status(are_all_wanted))
