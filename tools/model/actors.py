"""An update that is split among actors, which load and store single bytes in the order of a schedule.

Memory is the bytes of all blobs, and a place is a blob and a byte of it. A micro-step loads the byte at one place into the registers of its
actor, or stores it. Nothing here asks what the whole update leaves: each actor knows its rows and what it loaded.
"""
from collections import namedtuple

from layouts import digit
from values import value_of

MOST_CUTS, MOST_TURNS = 63, 2 ** 20
FACTOR, STEP, MODULUS, PART = 1103515245, 12345, 2 ** 31, 65536

Fetch = namedtuple('Fetch', 'place row')
Fetch.__doc__ = """Loads a byte for the values of a row."""
Load = namedtuple('Load', 'place')
Load.__doc__ = """Loads a byte that is to be changed."""
Store = namedtuple('Store', 'place row leaf expr')
Store.__doc__ = """Stores that byte with the bits of a leaf of a row changed."""


def bad_actors(cuts, count, turns):
    """The first refusal of cuts of so many rows and of so many turns, or None."""
    if len(cuts) > MOST_CUTS or any(cut > later for cut, later in zip(cuts, cuts[1:])) or any(cut > count for cut in cuts):
        return 'Cuts'
    return 'Turns' if turns > MOST_TURNS else None


def entries_of(seed, turns, actors):
    """The actor of each entry of a schedule."""
    number = seed % MODULUS
    for _ in range(turns):
        number = (number * FACTOR + STEP) % MODULUS
        yield number // PART % actors


def rows_of(cuts, count):
    """The rows of each actor."""
    bounds = [0, *cuts, count]
    return [range(begin, end) for begin, end in zip(bounds, bounds[1:])]


def shared_byte(blobs, cuts, count):
    """The first place that has bits of rows of two actors, or None."""
    actor_of = {row: actor for actor, rows in enumerate(rows_of(cuts, count)) for row in rows}
    for blob, owners in enumerate(blobs):
        for byte in range(len(owners) // 8):
            if len({actor_of[owner[0]] for owner in owners[8 * byte:8 * byte + 8] if owner is not None}) > 1:
                return blob, byte
    return None


class Actor:
    """What an actor has still to do, and its registers: the bytes that it loaded for the values of its rows, and the one that is to be changed."""

    def __init__(self, steps):
        self.steps, self.fetched, self.byte = iter(steps), {}, 0


class Run:
    """A view's memory, and the actors of an update over it. `reads` has the leaves that the update reads on each row, and `passed` the rows
    that its filter lets through, both of the table as it stood before."""

    def __init__(self, view, sets, cuts, reads, passed):
        self.view, self.sets, self.reads, self.passed = view, sets, reads, passed
        self.blobs = view.blobs()
        self.memory = [bytearray(view.bytes_of(blob)) for blob in self.blobs]
        self.bits = self.bits_of_entries()
        self.actors = [Actor(self.steps_of(rows)) for rows in rows_of(cuts, view.count())]

    def bits_of_entries(self):
        """Of each row and leaf the places of its bits, by blob, then bit: the byte, the bit of the byte, and the bit of the leaf."""
        bits = {}
        for blob, owners in enumerate(self.blobs):
            for at, owner in enumerate(owners):
                if owner is not None:
                    row, leaf, bit = owner
                    bits.setdefault((row, leaf), []).append(((blob, at // 8), at % 8, bit))
        return bits

    def places_of(self, row, leaf):
        """The bytes that hold a bit of a leaf in a row, by blob, then byte."""
        return list(dict.fromkeys(place for place, _, _ in self.bits[row, leaf]))

    def steps_of(self, rows):
        """The micro-steps of an actor that has these rows."""
        for row in rows:
            for leaf in sorted(self.reads[row]):
                for place in self.places_of(row, leaf):
                    yield Fetch(place, row)
            if row in self.passed:
                for leaf, expr in self.sets:
                    for place in self.places_of(row, leaf):
                        yield Load(place)
                        yield Store(place, row, leaf, expr)

    def reading(self, row, leaf, byte_at):
        """The number of a leaf in a row, read off bytes."""
        return self.view.number_of(leaf, sum(digit(byte_at(place), at) << bit for place, at, bit in self.bits[row, leaf]))

    def value(self, actor, row, leaf, expr):
        """What the view keeps in a leaf of the value that an actor works out for a row from the bytes that it loaded for it."""
        def read(other):
            return self.reading(row, other, lambda place: actor.fetched[place, row])
        return self.view.left(leaf, value_of(expr, read, self.view.index(row)))

    def changed(self, byte, step, value):
        """The byte with the bits of a leaf of a row, as far as they lie in it, in place of its own."""
        for place, at, bit in self.bits[step.row, step.leaf]:
            if place == step.place:
                byte = byte & ~(1 << at) | digit(value, bit) << at
        return byte

    def turn(self, number):
        """Makes the next micro-step of an actor; tells whether it had one left."""
        actor = self.actors[number]
        step = next(actor.steps, None)
        if step is None:
            return False
        blob, byte = step.place
        if isinstance(step, Store):
            self.memory[blob][byte] = self.changed(actor.byte, step, self.value(actor, step.row, step.leaf, step.expr))
        elif isinstance(step, Load):
            actor.byte = self.memory[blob][byte]
        else:
            actor.fetched[step.place, step.row] = self.memory[blob][byte]
        return True

    def finish(self):
        """Makes the micro-steps that are left, actor by actor."""
        for number in range(len(self.actors)):
            while self.turn(number):
                pass

    def entry(self, row, leaf):
        """The number of a leaf in a row, read off the memory as it is."""
        return self.reading(row, leaf, lambda place: self.memory[place[0]][place[1]])
