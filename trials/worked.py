"""Databases that are worked by hand: what calls do to the words of regions, and which records they log, as docs/MODEL.md says.

It is no part of the program, and is never handed what that writes. A `Database` has words and makes the records of calls on them;
a `Log` takes these as batches, and says what an image's header has to say of it."""
from collections.abc import Iterable, Mapping
from dataclasses import dataclass, field

import formats as f

ENTRIES, CELLS = range(21), range(1, 8)
FREE, LIVE, DEAD = range(3)


def packed(content: bytes) -> list[int]:
    """The five words of a value."""
    padded = content.ljust(40, b"\0")
    return [int.from_bytes(padded[at:at + 8], "big") for at in range(0, 40, 8)]


def place(region: int, cell: int) -> int:
    """The number that names a cell."""
    return 8 * region + cell


class Database:
    """The words of all regions, as the operations leave them. Each operation gives its block."""

    def __init__(self, index: int, heap: int) -> None:
        self.index = index
        self.heap = heap
        self.words = [[0] * f.WORDS for _ in range(index + heap)]
        for region in self.words[index:]:
            region[0] = 1

    def regions(self) -> list[bytes]:
        """The regions as an image has them."""
        return [f.region(dict(enumerate(words))) for words in self.words]

    def poke(self, region: int, word: int, mask: int) -> None:
        self.words[region][word] ^= mask

    def _block(self, key: int, region: int, operation: bytes, outcome: bytes, reads: Iterable[int],
               writes: Mapping[int, int] | None = None, undo: bytes = f.NO_UNDO) -> bytes:
        words = self.words[region]
        made = f.block(key, region, operation, outcome, {word: words[word] for word in reads}, writes, undo)
        for word, number in (writes or {}).items():
            words[word] = number
        return made

    def _entry(self, key: int, region: int) -> int | None:
        words = self.words[region]
        return next((it for it in ENTRIES if words[3 * it + 1] == LIVE and words[3 * it + 2] == key), None)

    def look(self, key: int, region: int) -> bytes:
        """Looks for a key in an index region: the states of the entries, and the keys of the live ones, up to that of the key."""
        words, at = self.words[region], self._entry(key, region)
        passed = ENTRIES if at is None else range(at)
        reads = [3 * it + 1 for it in passed] + [3 * it + 2 for it in passed if words[3 * it + 1] == LIVE]
        if at is None:
            return self._block(key, region, f.LOOK, f.absent(words[0] != 0), reads + [0])
        return self._block(key, region, f.LOOK, f.found(at, words[3 * at + 3]), reads + [3 * at + 1, 3 * at + 2, 3 * at + 3])

    def add(self, key: int, region: int, names: int) -> bytes:
        """Adds an entry that names a place, in the first free one."""
        at = next(it for it in ENTRIES if self.words[region][3 * it + 1] == FREE)
        reads = [3 * it + 1 for it in range(at)] + [3 * at + 1, 3 * at + 2, 3 * at + 3]
        writes = {3 * at + 1: LIVE, 3 * at + 2: key, 3 * at + 3: names}
        return self._block(key, region, f.add(names), f.added(at), reads, writes, f.undo_free_entry(at))

    def kill_entry(self, key: int, region: int) -> bytes:
        at = self._entry(key, region)
        assert at is not None
        killed = {3 * at + 1: DEAD}
        return self._block(key, region, f.kill_entry(at), f.KILLED, [3 * at + 1, 3 * at + 2], killed, f.undo_revive_entry(at))

    def _free_cell(self, region: int) -> int:
        return next(it for it in CELLS if self.words[region][8 * it] == FREE)

    def put(self, key: int, region: int, content: bytes) -> bytes:
        """Puts a value into the first free cell of a heap region."""
        cell = self._free_cell(region)
        reads = [8 * it for it in CELLS if it < cell] + list(range(8 * cell, 8 * cell + 8))
        writes = dict(enumerate([LIVE, key, len(content), *packed(content)], 8 * cell))
        return self._block(key, region, f.put(content), f.was_put(cell), reads, writes, f.undo_free_cell(cell))

    def _value(self, region: int, cell: int) -> bytes:
        length, *words = self.words[region][8 * cell + 2:8 * cell + 8]
        return b"".join(f.u64(it) for it in words)[:length]

    def read(self, key: int, region: int, cell: int) -> bytes:
        return self._block(key, region, f.read(cell), f.got_value(self._value(region, cell)), range(8 * cell, 8 * cell + 8))

    def change(self, key: int, region: int, cell: int, content: bytes) -> bytes:
        """Gives a cell another value."""
        length, *words = self.words[region][8 * cell + 2:8 * cell + 8]
        writes = dict(enumerate([len(content), *packed(content)], 8 * cell + 2))
        reads = range(8 * cell, 8 * cell + 8)
        return self._block(key, region, f.change(cell, content), f.CHANGED, reads, writes, f.undo_restore(cell, length, words))

    def kill_cell(self, key: int, region: int, cell: int) -> bytes:
        reads = [8 * cell, 8 * cell + 1, 8 * cell + 2]
        return self._block(key, region, f.kill_cell(cell), f.KILLED, reads, {8 * cell: DEAD}, f.undo_revive_cell(cell))

    def free_cell(self, key: int, region: int, cell: int) -> bytes:
        """Takes a put back, or frees what was killed."""
        return self._block(key, region, f.free_cell(cell), f.UNDONE, [8 * cell], {8 * cell: FREE})

    def free_entry(self, key: int, region: int, entry: int) -> bytes:
        """Takes an added entry back, or frees what was killed."""
        return self._block(key, region, f.free_entry(entry), f.UNDONE, [3 * entry + 1], {3 * entry + 1: FREE})

    # The records of whole calls, of keys that stand at home.

    def _at(self, key: int) -> tuple[int, int, int]:
        """A key's home, and the region and the cell of its record."""
        home = key % self.index
        entry = self._entry(key, home)
        assert entry is not None
        return home, *divmod(self.words[home][3 * entry + 3], 8)

    def insert(self, transaction: int, key: int, content: bytes, region: int) -> list[bytes]:
        """An insert of a new key, whose record goes into this heap region."""
        home, cell = key % self.index, self._free_cell(region)
        blocks = [self.look(key, home), self.put(key, region, content), self.add(key, home, place(region, cell))]
        return [*(f.operation(transaction, it) for it in blocks), f.done(transaction, f.insert(key, content), f.OK)]

    def update(self, transaction: int, key: int, content: bytes) -> list[bytes]:
        home, region, cell = self._at(key)
        blocks = [self.look(key, home), self.change(key, region, cell, content)]
        return [*(f.operation(transaction, it) for it in blocks), f.done(transaction, f.update(key, content), f.OK)]

    def get(self, transaction: int, key: int) -> list[bytes]:
        home, region, cell = self._at(key)
        answer = f.got(self._value(region, cell))
        blocks = [self.look(key, home), self.read(key, region, cell)]
        return [*(f.operation(transaction, it) for it in blocks), f.done(transaction, f.get(key), answer)]

    def delete(self, transaction: int, key: int) -> list[bytes]:
        home, region, cell = self._at(key)
        blocks = [self.look(key, home), self.kill_cell(key, region, cell), self.kill_entry(key, home)]
        return [*(f.operation(transaction, it) for it in blocks), f.done(transaction, f.delete(key), f.OK)]


def words_of(image: bytes, region: int) -> list[int]:
    """The words that an image file has of a region."""
    at = 64 + 512 * region
    return [int.from_bytes(image[it:it + 8], "big") for it in range(at, at + 512, 8)]


@dataclass
class Log:
    """The batches of a log behind its first one, and how many records they have."""
    index: int
    heap: int
    batches: list[bytes] = field(default_factory=list)
    records: int = 1
    length: int = 10

    def __post_init__(self) -> None:
        self.batches.append(f.formatted(self.index, self.heap))

    @property
    def place(self) -> int:
        """Where the next batch goes: the place of the closed gate."""
        return sum(len(it) for it in self.batches)

    def flush(self, *records: bytes) -> None:
        """Adds a batch of these records."""
        self.batches.append(f.batch(*records))
        self.records += len(records)
        self.length += sum(len(it) for it in records)

    def header(self, number: int, next_transaction: int) -> f.Header:
        """The header of an image that is begun here."""
        return f.Header(self.index, self.heap, number, self.place, self.records, self.length, next_transaction)

    def file(self) -> bytes:
        return f.log(*self.batches)
