"""What a handle holds, for throw_calls."""
from answers import BAD_WINDOW, NO_PLACE
from layouts import product
from llama_model import resolved
from records import leaves_of
from stencils import indices_in, is_window
from views import View


class Held:
    """What a handle holds, as the script has it: its name there, its leaves and extents, and its table, where it was shown since it changed.

    `unsaid` has for each leaf how many reads the calls counted and the script does not, or None where that is not known.
    """

    def __init__(self, name, record, said):
        self.name, self.record, self.leaves, self.words, self.wrap = name, record, leaves_of(record), said['words'], said['wrap']
        self.extents = None if '?' in self.words else self.words
        self.rows, self.reads, self.tallies = None, [], []
        self.lies_so(said['map'])

    def lies_so(self, mapping):
        self.mapping, self.unsaid = mapping, [0] * len(self.leaves)

    def read(self, leaf, times):
        if self.unsaid and leaf < len(self.leaves):
            self.unsaid[leaf] += times

    def view(self):
        """The view of this table, with the numbers that were shown."""
        view = View(self.record, self.extents, self.mapping, self.wrap)
        view.kept = dict(enumerate(self.rows or []))
        return view

    def lengths(self):
        return self.view().lengths()

    def paths(self):
        return [leaf.path for leaf in self.leaves]

    def shown(self, text):
        lines = text.decode().split('\n')[:-1]
        self.rows = [list(map(int, line.split(','))) for line in lines[1:]]
        self.extents = self.extents or resolved(self.words, len(self.rows))
        return lines[0] == ','.join(self.paths()) and len(self.rows) == product(self.extents)

    def index(self, row):
        """The index of a row; one of no row is out of its first extent."""
        if 0 in self.extents:
            return [0] * len(self.extents)
        index = []
        for extent in reversed(self.extents[1:]):
            index.insert(0, row % extent)
            row //= extent
        return [row, *index]

    def rows_of_box(self, call, count):
        """The rows of the box of a call, or why there are none, or not so many."""
        window = list(zip(call.words[:call.a], call.words[call.a:2 * call.a]))
        if not is_window(window, self.extents):
            return BAD_WINDOW
        rows = list(map(self.view().row_of, indices_in(window)))
        return rows if len(rows) == count else NO_PLACE
