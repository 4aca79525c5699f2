"""A model of pools that is independent of the proved ones, written from their rules.

The heap is slabs of 4,096 bytes. A call that needs slabs takes the lowest that are free and adjacent. A homogeneous pool
has cells of one size, numbered from 1; a mixed pool has cells for each class up to 2,048 bytes, and larger objects in
slabs of their own. The last freed cell is placed first.
"""

import bisect

START = 1 << 44
SLAB = 4096
CLASSES = (16, 32, 64, 128, 256, 512, 1024, 2048)


def slabs_for(count):
    """The slabs that so many bytes need."""
    return -(-count // SLAB)


class Slabs:
    def __init__(self, limit):
        self.held = [False] * limit

    def take(self, count):
        """The first of the lowest so many adjacent free slabs, which are held from now on; none where there are none."""
        free = 0
        for slab, is_held in enumerate(self.held):
            free = 0 if is_held else free + 1
            if free == count:
                first = slab + 1 - count
                self.held[first : slab + 1] = [True] * count
                return first
        return None

    def give(self, first, count):
        assert all(self.held[first : first + count])
        self.held[first : first + count] = [False] * count


class Cells:
    """Cells of one size: the addresses of those made, in the order of their numbers, and the freed ones."""

    def __init__(self, size):
        self.size = size
        self.in_run = max(1, SLAB // size)
        self.runs, self.made, self.freed = [], [], []

    def is_full(self):
        return not self.freed and len(self.made) == self.in_run * len(self.runs)

    def place(self):
        if self.freed:
            return self.freed.pop()
        run, place = divmod(len(self.made), self.in_run)
        self.made.append(START + SLAB * self.runs[run] + self.size * place)
        return self.made[-1]


class Pool:
    def __init__(self, cell, is_indexed):
        """Of cells of one size, or mixed where there is none."""
        self.is_mixed, self.is_indexed = cell is None, is_indexed
        self.cells = [Cells(size) for size in (CLASSES if self.is_mixed else (cell,))]
        self.live = {}  # for the address of each live cell or object its cells, or none where it is large
        self.large = {}  # for the address of each large object the number of its slabs
        self.peak = 0

    def cells_for(self, count):
        """The cells for an object of so many bytes; none where it is large."""
        return next((cells for cells in self.cells if not self.is_mixed or count <= cells.size), None)

    def slabs(self):
        held = sum(len(cells.runs) * slabs_for(cells.size) for cells in self.cells) + sum(self.large.values())
        if not self.is_mixed:
            # Exactly those that the peak needs.
            (cells,) = self.cells
            assert held == -(-self.peak // cells.in_run) * slabs_for(cells.size)
        return held


class Pools:
    """Each method answers as the call of its name does, in the words of the program."""

    def __init__(self, slabs, index):
        self.limit, self.most = slabs, index
        self.space = Slabs(slabs)
        self.pools, self.made = {}, 0
        self.starts, self.bytes = [], {}  # the addresses of the live cells and objects in order, and their bytes

    def init(self, cell, is_indexed):
        self.made += 1
        self.pools[self.made] = Pool(cell, is_indexed)
        return self.made

    def cells(self, source, cell):
        return self.init(cell, False)

    def indexed(self, source, cell):
        return self.init(cell, True)

    def mixed(self):
        return self.init(None, False)

    def lives(self, number):
        return "yes" if number in self.pools else "no"

    def destroy(self, number):
        if number not in self.pools:
            return "no pool"
        pool = self.pools.pop(number)
        for address in pool.live:
            self.end(address)
        for cells in pool.cells:
            for first in cells.runs:
                self.space.give(first, slabs_for(cells.size))
        for address, count in pool.large.items():
            self.space.give((address - START) // SLAB, count)
        return "done"

    def alloc(self, number, count):
        if number not in self.pools:
            return "no pool"
        if count == 0:
            return 0
        pool = self.pools[number]
        cells = pool.cells_for(count)
        answer = self.place_large(pool, count) if cells is None else self.place_cell(pool, cells)
        pool.peak = max(pool.peak, len(pool.live))
        return answer

    def place_large(self, pool, count):
        first = self.space.take(slabs_for(count))
        if first is None:
            return "heap exhausted"
        address = START + SLAB * first
        pool.large[address] = slabs_for(count)
        return self.begin(pool, address, count, None)

    def place_cell(self, pool, cells):
        if pool.is_indexed and not cells.freed and len(cells.made) >= self.most:
            return "index exhausted"
        if cells.is_full():
            first = self.space.take(slabs_for(cells.size))
            if first is None:
                return "heap exhausted"
            cells.runs.append(first)
        return self.begin(pool, cells.place(), cells.size, cells)

    def begin(self, pool, address, count, cells):
        at = bisect.bisect_left(self.starts, address)
        # What lives is apart, and in slabs that are held.
        assert at == 0 or self.starts[at - 1] + len(self.bytes[self.starts[at - 1]]) <= address
        assert at == len(self.starts) or address + count <= self.starts[at]
        assert all(self.space.held[(address - START) // SLAB : slabs_for(address + count - START)])
        self.starts.insert(at, address)
        self.bytes[address] = bytearray(count)
        pool.live[address] = cells
        return address

    def end(self, address):
        del self.starts[bisect.bisect_left(self.starts, address)]
        del self.bytes[address]

    def free(self, number, address):
        if number not in self.pools:
            return "no pool"
        pool = self.pools[number]
        if address not in pool.live:
            return "not live"
        cells = pool.live.pop(address)
        if cells is None:
            self.space.give((address - START) // SLAB, pool.large.pop(address))
        else:
            cells.freed.append(address)
        self.end(address)
        return "done"

    def numbered(self, number):
        """The addresses of the cells that are told by number."""
        pool = self.pools.get(number)
        return [] if pool is None or pool.is_mixed else pool.cells[0].made

    def address(self, number, cell):
        made = self.numbered(number)
        return made[cell - 1] if 1 <= cell <= len(made) else 0

    def index(self, number, address):
        made = self.numbered(number)
        return made.index(address) + 1 if address in made else 0

    def covering(self, address, width):
        """The live cell or object in which a range lies; none where there is none."""
        at = bisect.bisect_right(self.starts, address)
        if at == 0:
            return None
        start = self.starts[at - 1]
        return start if address + width <= start + len(self.bytes[start]) else None

    def load(self, address, width):
        start = self.covering(address, width)
        if start is None:
            return "none"
        return int.from_bytes(self.bytes[start][address - start :][:width], "little")

    def store(self, address, width, word):
        start = self.covering(address, width)
        if start is None:
            return "no"
        self.bytes[start][address - start : address - start + width] = (word % (1 << 8 * width)).to_bytes(width, "little")
        return "yes"

    def peak(self, number):
        return self.pools[number].peak if number in self.pools else 0

    def live(self, number):
        return len(self.pools[number].live) if number in self.pools else 0

    def slabs(self, number):
        return self.pools[number].slabs() if number in self.pools else 0

    def free_slabs(self):
        return self.space.held.count(False)
