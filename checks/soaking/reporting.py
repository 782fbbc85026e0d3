"""What a soak says: a line a minute, each case that differs, and at the end how often each form was met."""
import time
from collections import Counter

from soaking.parts import all_forms
from soaking.working import Report

KINDS = ("document", "table", "policy", "compile", "board", "state", "script", "capture", "description")
# so many numbers that differed stand in a line
MOST_NUMBERS = 12


class Account:
    """What came of all cases so far."""

    def __init__(self, names: list[str]) -> None:
        self.names = names
        self.began = time.monotonic()
        # whether somebody ended the run before its time, and whether processes ended by themselves
        self.is_stopped = False
        self.is_cut = False
        self.cases: Counter[str] = Counter()
        self.seconds: Counter[str] = Counter()
        self.unjudged: Counter[str] = Counter()
        self.differing: Counter[str] = Counter()
        self.met: Counter[str] = Counter()
        self.numbers: list[str] = []

    def add(self, report: Report) -> None:
        """Counts a report, and says a case that differs."""
        if report.kept:
            print(f"kept {report.part} {report.number} in {report.kept}", flush=True)
            return
        self.cases[report.part] += 1
        self.seconds[report.part] += report.seconds
        self.unjudged[report.part] += not report.tried.is_judged
        self.met += report.tried.met
        if report.tried.way:
            self.differing[report.part] += 1
            self.numbers.append(f"{report.part} {report.number}")
            told = report.tried.told.strip().replace("\n", " | ")
            print(f"DIFFERS {report.part} {report.number}: {report.tried.way}: {told[-700:]}", flush=True)

    def refusals(self) -> str:
        """How many refusals of each kind were seen, and by how many of the rules of commands."""
        rules = {form: count for form, count in self.met.items() if form.startswith("rule ")}
        kinds: Counter[str] = Counter()
        for form, count in rules.items():
            kinds[form.split()[2]] += count
        counts = ", ".join(f"{kind} {kinds[kind]}" for kind in dict.fromkeys([*KINDS, *kinds]) if kinds[kind])
        return f"{sum(kinds.values())} refusals by {len(rules)} rules of commands ({counts or 'none'})"

    def line(self) -> str:
        """The line of a minute."""
        minutes = (time.monotonic() - self.began) / 60
        unjudged = f", {self.unjudged.total()} not judged" if self.unjudged.total() else ""
        numbers = ", ".join(self.numbers[:MOST_NUMBERS]) + ", .." * (len(self.numbers) > MOST_NUMBERS)
        differing = f"{self.differing.total()} differed" + f" ({numbers})" * bool(numbers)
        return f"{minutes:4.0f} min: {self.cases.total()} cases, {self.refusals()}, {differing}{unjudged}"

    def missing(self) -> list[str]:
        """The forms that no case met."""
        return [form for form in all_forms() if not self.met[form]]

    def status(self, are_all_wanted: bool) -> int:
        """The status of the soak: 1 if a case differed, the run was cut off, or no case met some form that is wanted."""
        return int(self.differing.total() > 0 or self.is_cut or are_all_wanted and bool(self.missing()))

    def end(self) -> str:
        """How many cases each part had, how often each form was met, and which were not."""
        lines = [f"{name}: {self.of_part(name)}" for name in self.names]
        forms, missing = all_forms(), self.missing()
        groups: dict[str, list[str]] = {}
        for form in forms:
            kind, rest = form.split(" ", 1)
            key = f"{kind} {rest.split()[0]}" if kind in ("rule", "status") else kind
            groups.setdefault(key, []).append(f"{form.removeprefix(key).strip()} {self.met[form]}")
        lines += [f"{key}: {', '.join(counts)}" for key, counts in groups.items()]
        others = sorted(set(self.met) - set(forms))
        if others:
            lines.append(f"met, and on no list: {', '.join(others)}")
        lines.append(f"{len(forms) - len(missing)} of {len(forms)} forms were met")
        if missing:
            lines.append(f"not met: {', '.join(missing)}")
        lines.append(f"{self.cases.total()} cases, {self.differing.total()} differed")
        return "\n".join(lines)

    def of_part(self, name: str) -> str:
        told = f"{self.cases[name]} cases in {self.seconds[name]:.0f} s"
        told += f", {self.unjudged[name]} not judged" * bool(self.unjudged[name])
        return told + f", {self.differing[name]} differed" * bool(self.differing[name])
