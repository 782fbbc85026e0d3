"""Cases of a hub among peers on 127.0.0.1 that are not its own: `run` and `serve` on boards on UDP ports, clients of all
manners, what the guides show, and what whoever runs the hub meets. A case is a function of its peers, and raises
where something is not as it is owed."""
from net.console_cases import CONSOLE
from net.guide_cases import GUIDE
from net.operator_cases import OPERATORS
from net.progress_cases import PROGRESS
from net.run_cases import RUNS
from net.serve_cases import SERVES
from net.waiting_cases import WAITS

CASES = {**RUNS, **SERVES, **GUIDE, **OPERATORS, **WAITS, **CONSOLE, **PROGRESS}
