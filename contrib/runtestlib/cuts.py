"""Cuts of a transcript: the same bytes of each stream at the same places between what was sent, in other pieces.

A cut is a set of places (stretch, offset): the n-th stretch of a transcript is cut before the byte of that offset. A piece comes once
its last byte had come. So to cut a recorded piece changes no time, and to join pieces delays the first of them.
"""
from bisect import bisect_left
from itertools import groupby

from .transcripts import MOST_CHUNK, MOST_ENTRIES, MOST_WAIT, OUTPUT, Entry, entries, text_of, version


class Stretch:
    """Pieces of one stream that came with nothing between them."""

    def __init__(self, number, pieces):
        self.number, self.session, self.kind = number, pieces[0].session, pieces[0].kind
        self.data = b"".join(it.data for it in pieces)
        # for each recorded piece: where it ends, and when it came, after the stretch began
        self.ends, self.times = [], []
        for it in pieces:
            self.ends.append((self.ends[-1] if self.ends else 0) + len(it.data))
            self.times.append((self.times[-1] if self.times else 0) + it.wait)
        # the place of the first piece in its session, from 1
        self.entry = 0

    def time(self, end):
        """When the byte before this place had come."""
        return self.times[bisect_left(self.ends, end)]

    def joints(self):
        """The places between the recorded pieces."""
        return [(self.number, it) for it in self.ends[:-1]]

    def places(self, step):
        """Each place of so many bytes more."""
        return [(self.number, it) for it in range(step, len(self.data), step)]

    def pieces(self, fine, coarse):
        """The entries of the stretch, cut at the places of `fine`. Each piece comes when that of `coarse` came which it is a part of."""
        found, begin, last, at = [], 0, 0, 0
        coarse = [*coarse, len(self.data)]
        for end in [*fine, len(self.data)]:
            while coarse[at] < end:
                at += 1
            time = self.time(coarse[at])
            found.append(Entry(self.session, self.kind, time - last, self.data[begin:end]))
            begin, last = end, time
        return found


class Recording:
    """A transcript, as stretches of output and the entries between them."""

    def __init__(self, path):
        self.version, self.parts, self.stretches = version(path), [], []
        place = session = 0
        for (number, kind), group in groupby(entries(path), lambda it: (it.session, it.kind)):
            group = list(group)
            session, place = number, place if number == session else 0
            if kind in OUTPUT:
                stretch = Stretch(len(self.stretches), group)
                stretch.entry = place + 1
                self.stretches.append(stretch)
                group = [stretch]
                place += len(stretch.ends)
            else:
                place += len(group)
            self.parts += group
        self.recorded = frozenset(it for stretch in self.stretches for it in stretch.joints())

    def listed(self, fine, coarse):
        """The entries of the transcript that is cut at `fine`, at the times of the one that is cut at `coarse`."""
        fine, coarse = by_stretch(fine), by_stretch(coarse)
        for part in self.parts:
            if isinstance(part, Stretch):
                yield from part.pieces(fine.get(part.number, []), coarse.get(part.number, []))
            else:
                yield part

    def text(self, form):
        """The text of the transcript of these two cuts; nothing where it would be none."""
        listed = list(self.listed(*form))
        if len(listed) > MOST_ENTRIES or any(it.wait > MOST_WAIT or it.kind in OUTPUT and len(it.data) > MOST_CHUNK for it in listed):
            return None
        return text_of(self.version, listed)

    def pairs(self, cut):
        """What is compared to see what a cut does: pairs of transcripts with the same bytes at the same times, which differ in cuts alone.

        First the recorded one, and that with the new cuts more. Then that with the later pieces' times, and the one of the cut itself.
        """
        both = self.recorded | cut
        if both != self.recorded:
            yield (self.recorded, self.recorded), (both, both)
        if cut != both:
            yield (both, cut), (cut, cut)

    def room(self):
        """How many places more than those recorded the transcript has room for."""
        return MOST_ENTRIES - sum(len(it.ends) if isinstance(it, Stretch) else 1 for it in self.parts)

    def bytewise(self):
        """Each byte a piece of its own; of a transcript that has no room for that, pieces of as few bytes as it has room for."""
        length, step = sum(len(it.data) for it in self.stretches), 1
        while length // step > self.room() and step < MOST_CHUNK:
            step *= 2
        return self.recorded.union(*(it.places(step) for it in self.stretches if length // step <= self.room()))

    def joined(self, most, at_once):
        """Neighbours are joined into pieces of at most so many bytes: all, or only what came with no wait between."""
        kept = set()
        for stretch in self.stretches:
            begin = since = 0
            for (_, place), time, end, later in zip(stretch.joints(), stretch.times, stretch.ends[1:], stretch.times[1:]):
                if end - begin > most or later - since > MOST_WAIT or at_once and later > time:
                    kept.add((stretch.number, place))
                    begin, since = place, time
        return frozenset(kept)

    def anywhere(self, random, most):
        """Pieces of random lengths around one that is drawn too, from a byte to all that came."""
        kept = set()
        least = 4 * sum(len(it.data) for it in self.stretches) // max(self.room(), 1) + 1
        for stretch in self.stretches:
            length = len(stretch.data)
            around = max(int(2 ** random.uniform(0, min(length, most).bit_length())), least)
            at = random.randint(1, min(2 * around, most))
            while at < length:
                kept.add((stretch.number, at))
                at += random.randint(1, min(2 * around, most))
        return frozenset(kept)


def by_stretch(cut):
    """The offsets of each stretch, in order."""
    found = {}
    for number, offset in sorted(cut):
        found.setdefault(number, []).append(offset)
    return found


def smallest(changes, differs, tries):
    """A small part of these changes that still differs, after at most so many tries (delta debugging: halves, then finer parts)."""
    parts = 2
    while len(changes) > 1:
        size = -(-len(changes) // parts)
        cut = [changes[at : at + size] for at in range(0, len(changes), size)]
        rests = [[it for it in changes if it not in set(part)] for part in cut] if parts > 2 else []
        found = None
        for it in [*cut, *rests]:
            tries -= 1
            if tries < 0:
                return changes
            if differs(it):
                found = it
                break
        if found:
            parts = 2 if found in cut else max(parts - 1, 2)
            changes = found
        elif parts >= len(changes):
            return changes
        else:
            parts = min(2 * parts, len(changes))
    return changes
