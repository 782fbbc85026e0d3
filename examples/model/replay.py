"""Checks a printed transcript against its session document by replay: the bodies of each board are executed by a bus
with a single thread in the order of the printed places, and each line must show what that bus gave there.

What a policy denies is in no body, and just its lines say that it is denied, each by its rule.

It knows nothing of networks and hubs, and holds for clients in any order, also at once. A body that timed out has a
place; if a later place was replied to, it was executed, and else nobody can tell, so all places are replayed. A late
answer is what the bus gave at its body's place to the first piece there of the line that tells of it; which one of the
bodies of a line that is, the line does not tell.

Where lines leave open which of their bodies have their places, a way is looked for in which all lines are as they are
printed. Ways in which the bodies without a place stand together come first: a hub that gives up leaves the rest of what
it was asked, and goes on with what is asked of it later. Where a line shows a word that such a way does not give, the
steps at that word's address are looked at, what cannot be is set aside, and where that leaves ways open they are tried.
"""
from collections import defaultdict

from model.cells import Cell, shown_late, shown_words, steps_of
from model.chains import Chain, Label, Late, fewest_cuts, least, piece_text
from model.session import Bus
from model.told import Wrong, check, read_lines

MOST_TRIES = 1000


class Undecided(Wrong):
    """There are more ways to read the transcript than are tried."""


class Replay:
    """The lines of a live board, and the ways to give their places to the bodies of its clients.

    What was set aside is a tuple with a set for each chain, of pairs of a body's key and a place or None, and of bodies
    of whose late answers lines do not tell.
    """

    def __init__(self, session, told):
        self.told = told
        self.name = f"board {told.board.name}"
        place = session.boards.index(told.board)
        self.requests = [client.bodies[place] for client in session.clients]
        self.answers = {}
        by_client = defaultdict(list)
        for line in told.lines:
            by_client[line.client].append(line)
        self.chains = [Chain(lines, self.texts_of) for lines in by_client.values()]
        placed = sorted(place for chain in self.chains for place in chain.places)
        # the line of a board may tell any number, and no list of that length is made
        has_them = len(placed) == told.sent and placed == list(range(1, len(placed) + 1))
        check(has_them, f"{self.name}: its bodies do not have its places")
        # the words that lines show, by each body of whose late answer they may tell
        self.lates = {late: shown_late(line, late.key[1]) for line in told.lines for late in self.lates_of(line)}
        self.fault = None
        self.tries = 0
        self.cells = {}
        self.steps = None

    def body(self, key):
        client, number = key
        return self.requests[client - 1][number]

    def texts_of(self, key):
        """What the pieces of a body show where it is executed. How far the bus gets with it depends on no word there,
        so that is asked of a bus that was not used."""
        self.answers[key] = answers = Bus(self.told.board.ranges).execute(self.body(key))
        return [piece_text(answers, index) for index in range(len(self.body(key)))]

    def lates_of(self, line):
        """The bodies of whose late answers a line may tell, if it shows words of one."""
        if line.outcome != "late":
            return
        for number, _ in line.bodies:
            key = (line.client, number)
            _, index = line.first_piece(number)
            if piece_text(self.answers[key], index) is None and line.late_words(number):
                yield Late(key, line.told)

    def answers_at(self, places):
        """What the bus answers to each body that has a place of these."""
        bus = Bus(self.told.board.ranges)
        in_order = sorted((place, key) for key, place in places.items() if place is not None)
        return {key: bus.execute(self.body(key)) for _, key in in_order}

    def wrong_addresses(self, answers):
        """The addresses of words that lines show otherwise than the bus gave them, where all pieces were done."""
        found = set()
        for line in self.told.lines:
            if not line.is_good or not line.words:
                continue
            wrong = wrong_words(shown_words(line), answers)
            if wrong and not self.fault:
                self.fault = f"{line.told}: {line.result[:80]!r} is not what the board's order gives"
            found |= wrong
        return found

    def wrong_lates(self, answers):
        """The bodies of whose late answers lines cannot tell, with the addresses of words that are shown otherwise than
        the bus gave them."""
        found = {late: wrong_words(words, answers) for late, words in self.lates.items() if late.key in answers}
        return {late: wrong for late, wrong in found.items() if wrong}

    # ---- what is set aside

    def cell(self, address):
        """What is shown of one address, and what the bodies do there."""
        if self.steps is None:
            shown = defaultdict(dict)
            for line in self.told.lines:
                for word in shown_words(line) if line.is_good else ():
                    shown[word.key][word.index, word.done] = word
            self.steps = defaultdict(dict)
            for key, answers in self.answers.items():
                for each, steps in steps_of(self.body(key), answers, shown[key]).items():
                    self.steps[each][key] = steps
        word, _ = Bus(self.told.board.ranges).read(address)
        return Cell(word, self.steps[address], self.late_steps(address))

    def late_steps(self, address):
        """The steps at an address of the bodies of whose late answers lines may show a word there."""
        found = {}
        for late, words in self.lates.items():
            shown = {(word.index, word.done): word for word in words if word.address == address}
            if shown:
                found[late] = steps_of(self.body(late.key), self.answers[late.key], shown)[address]
        return found

    def settled(self, aside):
        """Sets aside what no way lets be, by the chains and the addresses that are looked at. The options that are
        left for each body, by its key, and all that is set aside; or None where no way is left."""
        while True:
            options = {}
            for chain, refused in zip(self.chains, aside):
                left = chain.options(refused)
                if not left:
                    return None
                options |= left
            more = set()
            for cell in self.cells.values():
                refused = cell.refused(options)
                if refused is None:
                    return None
                more |= refused.difference(*aside)
            if not more:
                return options, aside
            aside = self.with_aside(aside, more)

    def with_aside(self, aside, more):
        """What was set aside, and more."""
        of_client = defaultdict(set)
        for each in more:
            (client, _), _ = each
            of_client[client].add(each)
        return tuple(refused | of_client[chain.client] for chain, refused in zip(self.chains, aside))

    # ---- the search

    def fitting(self, aside):
        """A way to place all bodies, as a label for each chain, so that the outcomes that the lines tell of are within
        the counts of the board. The other bodies can make up the rest of these. None where there is no such way."""
        sums = [Label()]
        for chain, refused in zip(self.chains, aside):
            labels = chain.labels(least, refused)
            sums = least([one.joined(label) for one in sums for label in labels])
            sums = [one for one in sums if all(a <= b for a, b in zip(one.counts, self.told.counts))]
        return sums[0].parts() if sums else None

    def places(self, labels):
        """The place of each body, or None, by its key."""
        found = {}
        for chain, label in zip(self.chains, labels):
            found.update(zip((body.key for body in chain.bodies), label.parts()))
        return found

    def wrong_way(self, options, aside):
        """Nothing where a way is right, and else the addresses of the words that a way shows wrong. None where no way
        has the counts of the board."""
        fit = self.fitting(aside)
        if fit is None:
            self.fault = self.fault or f"{self.name}: its counts are not those of its lines"
            return None
        cheapest = [chain.labels(fewest_cuts, refused)[0] for chain, refused in zip(self.chains, aside)]
        for labels in (cheapest, fit):
            places = self.places(labels)
            answers = self.answers_at(places)
            wrong = self.wrong_addresses(answers)
            if wrong:
                return wrong
            lates = self.wrong_lates(answers)
            others = {(key, place) for key in options for place in options[key] if place != places[key]}
            if self.fitting(self.with_aside(aside, others.union(lates))) is not None:
                return set()
        self.fault = self.fault or f"{min(lates).told}: its late answer is not what the board's order gives"
        return set().union(*lates.values())

    def is_right(self, aside):
        """Some way to place the bodies is right, of those that are not set aside."""
        self.tries += 1
        if self.tries > MOST_TRIES:
            raise Undecided(f"{self.name}: more than {MOST_TRIES} tries to give its places; {self.fault}")
        while True:
            found = self.settled(aside)
            if not found:
                return False
            options, aside = found
            wrong = self.wrong_way(options, aside)
            if not wrong:
                return wrong is not None
            unseen = wrong - self.cells.keys()
            if not unseen:
                break
            self.cells |= {address: self.cell(address) for address in unseen}
        keys = [key for address in wrong for key in self.cells[address].steps if len(options[key]) > 1]
        key = min(keys, key=lambda key: (len(options[key]), key))
        for place in options[key]:
            others = {(key, other) for other in options[key] if other != place}
            if self.is_right(self.with_aside(aside, others)):
                return True
        return False

    def judge(self):
        for chain in self.chains:
            chain.check_alone()
        aside = tuple(frozenset() for _ in self.chains)
        if not self.is_right(aside):
            raise Wrong(self.fault or f"{self.name}: its lines cannot have its places")


def wrong_words(shown, answers):
    """The addresses of the words that are shown otherwise than the bus gave them."""
    return {word.address for word in shown if not word.is_shown_of(word.found_in(answers))}


def check_board(session, told):
    if told.unplaced:
        for line in told.lines:
            check(line.result == told.unplaced and not line.places, f"{line.told}: it is not {told.unplaced}")
        return
    Replay(session, told).judge()


def check_same_but_for_order(session, text, wanted):
    """Raises `Wrong` where a transcript tells something else than another one of boards that clients use alone, or of
    what is denied. Of a board that several clients share, at once, only what another line is about is compared."""
    lines, wanted_lines = text.splitlines(), wanted.splitlines()
    check(len(lines) == len(wanted_lines), f"{len(lines)} lines in place of {len(wanted_lines)}")
    shared = session.shared_boards()
    for line, other in zip(lines, wanted_lines):
        words, others = line.split(" ")[:3], other.split(" ")[:3]
        if others[0] == "board":
            same = words[:2] == others[:2] if others[1] in shared else line == other
        else:
            is_denied = other.rpartition(" ")[0].endswith(" denied by rule")
            is_shared = not is_denied and others[2:] and others[2].partition(":")[0] in shared
            same = words == others if is_shared else line == other
        check(same, f"{line[:80]!r} in place of {other[:80]!r}")


def check_text(session, text, is_counted=True):
    """Raises `Wrong` where the text is not one that the session can have, and else gives the status that goes with it.
    Where it is not counted, what the line of a board counts as replied, timeout and lost makes up its places, and may
    be anything else."""
    told = read_lines(session, text)
    for each in told:
        if not is_counted and not each.unplaced:
            each.counts = [each.sent] * len(each.counts)
        check_board(session, each)
    is_denied = any(operation.denied_by is not None for client in session.clients for operation in client.operations)
    return 1 if is_denied or not all(line.is_good for each in told for line in each.lines) else 0


def check_transcript(session, text, status):
    """Raises `Wrong` where the text or the status is not one that the session can have."""
    wanted = check_text(session, text)
    check(status == wanted, f"the status is {status} in place of {wanted}")
