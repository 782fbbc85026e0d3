"""What the lines show of the words at one address of a board's bus, and which places bodies can have for it."""
from collections import defaultdict, namedtuple

from model.session import READ, READ_PORT, RMW_BITS, RMW_SUM, WHOLE, WRITE_PORT


class Shown(namedtuple("Shown", "key index done address mask shift word")):
    """A word that a line shows: that of a request of a body, by the body's key and the index of the request there,
    behind so many words that were done."""

    def found_in(self, answers):
        """The word that the bus gave, where all bodies have their answers by their keys."""
        words, _ = answers[self.key][self.index]
        return words[self.done]

    def is_shown_of(self, word):
        return (word & self.mask) >> self.shift == self.word

    def step(self, words):
        return {word for word in words if self.is_shown_of(word)}


def address_of(request, done):
    return request.address if request.kind in (READ_PORT, WRITE_PORT) else request.address + done


def shown_words(line):
    """The words that a line shows, if all its pieces were done."""
    words = iter(line.words)
    for (body, index), request in zip(line.operation.pieces, line.operation.requests):
        yield from shown_of(line, body, index, request, words)


def shown_late(line, body):
    """The words that a line shows, if it tells of the late answer of this body."""
    request, index = line.first_piece(body)
    return list(shown_of(line, body, index, request, line.late_words(body)))


def shown_of(line, body, index, request, words):
    """What a line shows of a request, by the next ones of its words."""
    register = line.operation.register
    is_field = line.operation.verb == "read"
    mask, shift = (register.mask, register.shift) if is_field else (WHOLE, 0)
    # a write shows no word
    for done, word in zip(range(request.count), words):
        yield Shown((line.client, body), index, done, address_of(request, done), mask, shift, word)


# a step at an address leads from the words that can be there to those that can be there behind it


class SetTo(namedtuple("SetTo", "word")):
    def __call__(self, words):
        return {self.word} if words else words


def with_bits(kept, more):
    return lambda words: {word & kept | more for word in words}


def with_sum(addend):
    return lambda words: {(word + addend) & WHOLE for word in words}


def change_of(request, done):
    """The step by which the next word of a request changes what is there."""
    if request.kind == RMW_BITS:
        return with_bits(*request.words)
    return with_sum(request.words[0]) if request.kind == RMW_SUM else SetTo(request.words[done])


def steps_of(requests, answers, shown):
    """The steps of a body by their addresses. `answers` tell how far the bus gets with it, and `shown` has what is
    shown of its words, by index and words that were done."""
    steps = defaultdict(list)
    for index, (words, _) in enumerate(answers):
        request = requests[index]
        for done in range(len(words)):
            found = steps[address_of(request, done)]
            if (index, done) in shown:
                found.append(shown[index, done].step)
            if request.kind in (READ, READ_PORT):
                continue
            change = change_of(request, done)
            if isinstance(change, SetTo) and found and isinstance(found[-1], SetTo):
                found.pop()
            found.append(change)
    return steps


def behind(steps, words):
    """The words that can be there behind some steps."""
    for step in steps:
        words = step(words)
    return words


class Event(namedtuple("Event", "place keys others")):
    """A place of bodies with steps at an address: the keys of those that can have it, and whether another body can."""


# a body at a place or at None, and its steps at an address
Fixed = namedtuple("Fixed", "key place steps")


class Cell:
    """The word that an address opens with, and the steps of bodies there, by the key of each body. A body of which no
    line shows a word there, and that only reads, has an empty list of them. `lates` has the steps of a body whose late
    answer a line may show, by what that line tells."""

    def __init__(self, word, steps, lates):
        self.word = word
        self.steps = steps
        self.lates = lates

    def events(self, options):
        """The events in rising order of their places."""
        by_place = defaultdict(list)
        for key in self.steps:
            for place in options[key]:
                if place is not None:
                    by_place[place].append(key)
        others = {place for key in options if key not in self.steps for place in options[key]}
        return [Event(place, keys, place in others) for place, keys in sorted(by_place.items())]

    def behind(self, event, words, fixed=Fixed(None, None, None)):
        """The words that can be there behind an event. One body can be fixed to a place, or to None."""
        if event.place == fixed.place:
            return behind(fixed.steps, words)
        found = set(words) if event.others else set()
        for key in event.keys:
            if key != fixed.key:
                found |= behind(self.steps[key], words)
        return found

    def holds(self, events, before, fixed):
        """Whether all that is shown can be so where one body is fixed. That each of the others has one place alone is
        not looked at. `before` has the words that can be there before each event where none is fixed."""
        own = [number for number, event in enumerate(events) if fixed.key in event.keys]
        words = before[own[0]]
        for number in range(own[0], len(events)):
            if number > own[-1] and words == before[number]:
                return True
            words = self.behind(events[number], words, fixed)
        return bool(words)

    def refused(self, options):
        """The options that no way lets be, as pairs of a body's key and a place or None, and the late answers that none
        does. None where there is no way at all."""
        events = self.events(options)
        before = [{self.word}]
        for event in events:
            before.append(self.behind(event, before[-1]))
        if not before[-1]:
            return None
        open_keys = [key for key in self.steps if len(options[key]) > 1]
        fixed = [Fixed(key, place, self.steps[key]) for key in open_keys for place in options[key]]
        refused = {(each.key, each.place) for each in fixed if not self.holds(events, before, each)}
        for late, steps in self.lates.items():
            fixed = [Fixed(late.key, place, steps) for place in options[late.key] if place is not None]
            if not any(self.holds(events, before, each) for each in fixed):
                refused.add(late)
        return refused
