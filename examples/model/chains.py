"""The bodies of one client on one board, and the ways in which they can have the places that its lines show.

A line shows the places of its bodies in their order. Where it shows fewer places than it has bodies, it leaves open
which of those with the same positions were sent. What it says of their outcomes stands in its result.
"""
from collections import defaultdict, namedtuple

from model.told import Wrong, check

# the outcomes of bodies with a place, in the order of the counts of a board, and by which of these each is counted
COUNTED = ("replied", "timeout", "link lost")
COUNTED_AS = {"replied": "replied", "timeout": "timeout", "late": "timeout", "link lost": "link lost"}
WITHOUT_A_PLACE = ("unsent", "link lost")

# how many places are given to the bodies before, whether a line goes on that is not decided by them, and whether one
# goes on of whose bodies the last one was left without a place
State = namedtuple("State", "taken is_open was_left")
BEGIN = State(0, False, False)

# that the line which is told so tells of the late answer of the body with this key
Late = namedtuple("Late", "key told")


def piece_text(answers, index):
    """None for a piece that was done, or what a line shows of it."""
    if index >= len(answers):
        return "skipped"
    words, code = answers[index]
    return f"error {code} after {len(words)}" if code else None


def least(labels):
    """Those of some labels whose counts are not each as great as those of another one, or greater. Of labels with the
    same counts one with the fewest cuts stays."""
    kept = []
    for label in sorted(labels, key=lambda label: (label.counts, label.cuts)):
        if not any(all(a <= b for a, b in zip(other.counts, label.counts)) for other in kept):
            kept.append(label)
    return kept


def fewest_cuts(labels):
    """The label with the fewest cuts, the first one of them."""
    return [min(labels, key=lambda label: label.cuts)]


class Label:
    """A way to place the first bodies of a client, or all bodies of the first clients: how many of them with a place
    must have each of the outcomes, how often one with a place stands behind one without in the same line, and the parts
    of the way as nested pairs: the places of the bodies, or None, or the labels of the clients."""

    def __init__(self, counts=(0, 0, 0), cuts=0, way=None):
        self.counts = counts
        self.cuts = cuts
        self.way = way

    def with_body(self, place, more, is_cut):
        """This way of bodies, and the next one at a place or None."""
        counts = tuple(a + b for a, b in zip(self.counts, more)) if any(more) else self.counts
        return Label(counts, self.cuts + is_cut, (self.way, place))

    def joined(self, label):
        """This way of clients, and that of one more."""
        counts = tuple(a + b for a, b in zip(self.counts, label.counts))
        return Label(counts, self.cuts + label.cuts, (self.way, label))

    def parts(self):
        found = []
        way = self.way
        while way:
            way, part = way
            found.append(part)
        return found[::-1]


class Body:
    """A body of a client: the lines with pieces in it, with their positions there, and what each of its pieces shows
    where it was executed, or None where that piece was done."""

    def __init__(self, key, texts_of):
        self.key = key
        self.number = key[1]
        self.texts = texts_of(key)
        self.lines = []
        self.known_moves = {}

    @property
    def shape(self):
        """What the lines show of its place. Other bodies have the same shape only where one line alone has them."""
        return tuple((line.operation.number, positions) for line, positions in self.lines)

    def begins(self, line):
        return line.bodies[0][0] == self.number

    def ends(self, line):
        return line.bodies[-1][0] == self.number

    @property
    def goes_on(self):
        """The line before it has pieces in it."""
        return not self.begins(self.lines[0][0])

    def leaves_open(self, line, positions, outcome):
        """Whether a line still waits for the piece that decides its result, where this body has that outcome and all
        before it were done. None where the line tells otherwise."""
        if outcome == line.outcome == "late":
            return False if self.can_be_late(line, positions[0]) else None
        if outcome != "replied":
            return False if outcome == line.outcome else None
        text = next((self.texts[position - 1] for position in positions if self.texts[position - 1]), None)
        if text is None:
            return True
        return False if text == line.result else None

    def can_be_late(self, line, position):
        """Whether a line can tell of its late answer, but for the words, if its first piece here has this position."""
        text = self.texts[position - 1]
        return line.late_words(self.number) is not None if text is None else line.late == text

    def told_late(self, is_open):
        """What the lines tell of it, if it was answered late."""
        lines = [line for line, _ in self.lines if is_open or self.begins(line)]
        return {Late(self.key, line.told) for line in lines}

    def after(self, is_open, outcome):
        """Whether the line that goes on behind this body waits for what decides it, or None where a line tells
        otherwise. `is_open` says the same of the line that goes on from before it."""
        for line, positions in self.lines:
            if self.begins(line):
                is_open = True
            if is_open:
                is_open = self.leaves_open(line, positions, outcome)
                if is_open is None or is_open and self.ends(line) and not line.is_good:
                    return None
        return is_open and not self.ends(self.lines[-1][0])

    def moves(self, is_open, is_placed):
        """The outcomes that it can have, each with what `after` answers. None where its lines say nothing of it."""
        if (is_open, is_placed) not in self.known_moves:
            self.known_moves[is_open, is_placed] = list(self.all_moves(is_open, is_placed))
        return self.known_moves[is_open, is_placed]

    def all_moves(self, is_open, is_placed):
        if len(self.lines) == 1 and self.goes_on and not is_open:
            yield None, False
            return
        for outcome in COUNTED_AS if is_placed else WITHOUT_A_PLACE:
            is_open_behind = self.after(is_open, outcome)
            if is_open_behind is not None:
                yield outcome, is_open_behind


class Chain:
    """The bodies of one client in the order of its script, and its places in rising order, with the shapes that its
    lines show there.

    The ways to place its bodies are the paths from `BEGIN` through states, one for each body, that give all places.
    """

    def __init__(self, lines, texts_of):
        self.client = lines[0].client
        self.bodies = []
        shown = {}
        last = 0
        for line in lines:
            for number, positions in line.bodies:
                if not self.bodies or self.bodies[-1].number != number:
                    self.bodies.append(Body((line.client, number), texts_of))
                self.bodies[-1].lines.append((line, positions))
            for place, positions in line.places:
                check(place >= last, f"{line.told}: its places do not rise in the order of the script")
                last = place
                shown.setdefault(place, []).append((line.operation.number, positions))
        self.places = list(shown)
        self.shapes = [tuple(shape) for shape in shown.values()] + [None]
        self.is_open = any(0 < len(line.places) < len(line.bodies) for line in lines)
        self.known_labels = {}
        self.stuck = self.bodies[-1]
        self.count_rest()

    def count_rest(self):
        """How many bodies, and places, of the same shape come from each one on."""
        self.body_shapes = [body.shape for body in self.bodies]
        counts = defaultdict(int)
        self.bodies_behind = []
        for shape in reversed(self.body_shapes):
            self.bodies_behind.append(counts[shape])
            counts[shape] += 1
        self.bodies_behind.reverse()
        counts.clear()
        self.places_from = []
        for shape in reversed(self.shapes):
            counts[shape] += 1
            self.places_from.append(counts[shape])
        self.places_from.reverse()

    def edges(self, number, state, refused):
        """The ways on from a state by one body, but for those refused: its place or None, its outcome, and the state
        behind it."""
        body = self.bodies[number]
        taken = state.taken
        fits = self.body_shapes[number] == self.shapes[taken]
        if fits and (body.key, self.places[taken]) not in refused:
            for outcome, is_open in body.moves(state.is_open, True):
                if outcome != "late" or refused.isdisjoint(body.told_late(state.is_open)):
                    yield self.places[taken], outcome, State(taken + 1, is_open, False)
        # the places that are left need as many bodies
        enough = not fits or self.bodies_behind[number] >= self.places_from[taken]
        if enough and (body.key, None) not in refused:
            for outcome, is_open in body.moves(state.is_open, False):
                yield None, outcome, State(taken, is_open, not body.ends(body.lines[-1][0]))

    def is_end(self, state):
        return state.taken == len(self.places)

    def labels(self, keep, refused=frozenset()):
        """The labels of the ways to place all bodies, of which `keep` keeps some at each state."""
        if not self.is_open:
            keep = least
        if (keep, refused) not in self.known_labels:
            self.known_labels[keep, refused] = self.found_labels(keep, refused)
        return self.known_labels[keep, refused]

    def found_labels(self, keep, refused):
        layer = {BEGIN: [Label()]}
        for number, body in enumerate(self.bodies):
            found = defaultdict(list)
            for state, labels in layer.items():
                for place, outcome, behind in self.edges(number, state, refused):
                    is_cut = state.was_left and place is not None
                    counted = place is not None and COUNTED_AS.get(outcome)
                    more = tuple(counted == each for each in COUNTED)
                    found[behind] += [label.with_body(place, more, is_cut) for label in labels]
            if not found:
                self.stuck = body
                return []
            layer = {state: keep(labels) if len(labels) > 1 else labels for state, labels in found.items()}
        ends = [label for state, labels in layer.items() if self.is_end(state) for label in labels]
        return keep(ends)

    def check_alone(self):
        """Some way to place its bodies has the outcomes that the lines tell of."""
        if not self.labels(least):
            line, _ = self.stuck.lines[0]
            raise Wrong(f"{line.told} or the next one: {line.result[:80]!r} is not what such places give")

    def options(self, refused=frozenset()):
        """For each body, by its key, the places that it has on some way to place all bodies, and None where it has
        none on some way. Nothing where there is no way."""
        if not self.is_open:
            labels = self.labels(least, refused)
            return {body.key: {place} for body, place in zip(self.bodies, labels[0].parts())} if labels else {}
        layers = [{BEGIN}]
        for number in range(len(self.bodies)):
            edges = (edge for state in layers[-1] for edge in self.edges(number, state, refused))
            layers.append({behind for _, _, behind in edges})
        alive = {state for state in layers.pop() if self.is_end(state)}
        found = {}
        for body in reversed(self.bodies):
            before = layers.pop()
            edges = [(state, *edge) for state in before for edge in self.edges(len(layers), state, refused)]
            edges = [edge for edge in edges if edge[-1] in alive]
            found[body.key] = {place for _, place, _, _ in edges}
            alive = {state for state, _, _, _ in edges}
        return found if alive else {}
