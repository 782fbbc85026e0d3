"""Cases among peers: a hub, boards on UDP ports and clients over TCP, which all end with the case."""
from collections.abc import Callable

from net.peers import Peers, Skipped, within
from soaking.cases import Tried
from soaking.program import Program

# so many seconds a case may take
SECONDS = 100.0
# the program has the memory of the machine, whatever the process has that starts it
FREE = ["sh", "-c", 'ulimit -S -v unlimited; exec "$0" "$@"']


def among(found: Tried, program: Program, case: Callable[[Peers], None]) -> None:
    """Runs a case among peers. What is not as it is owed there is a difference, which its first words name."""
    try:
        faults = within(SECONDS, [*FREE, program.path], case)
    except Skipped:
        found.is_judged = False
        return
    for fault in faults:
        kind = " ".join(word for word in fault.split()[:4] if word.isalpha())
        found.differs(f"peers {kind}", fault)
