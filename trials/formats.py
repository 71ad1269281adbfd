"""An encoder of the program's files, written from docs/FORMATS.md alone. It is no part of the program, and is never handed what that writes.

Numbers are big-endian. A log is `log(batch, batch, ..)`, a batch a list of records, a record what the functions named as in the
table of records give. An image is `image(..)`, an anchor `anchor(count)`."""
from collections.abc import Mapping, Sequence
from dataclasses import dataclass
from struct import pack

OPEN, CLOSED = b"\xa5", b"\0"
WORDS = 64
"""How many words a region has."""


def u32(number: int) -> bytes:
    return pack(">I", number)


def u64(number: int) -> bytes:
    return pack(">Q", number)


def byte(number: int) -> bytes:
    return pack(">B", number)


def value(content: bytes) -> bytes:
    """A value: its length in one byte, and its bytes."""
    return byte(len(content)) + content


def u32s(numbers: Sequence[int]) -> bytes:
    return u32(len(numbers)) + b"".join(u32(it) for it in numbers)


def u64s(numbers: Sequence[int]) -> bytes:
    return u32(len(numbers)) + b"".join(u64(it) for it in numbers)


# The log.

def batch(*records: bytes) -> bytes:
    """An open gate, the length of the body, and the body: these records."""
    body = b"".join(records)
    return OPEN + u32(len(body)) + body


def log(*batches: bytes) -> bytes:
    """These batches and a closed gate."""
    return b"".join(batches) + CLOSED


def formatted(index: int, heap: int) -> bytes:
    """The first batch of a log: its format."""
    return batch(format_record(index, heap))


# Undos, by which a block says how it is taken back.

NO_UNDO = byte(0)


def undo_free_cell(cell: int) -> bytes:
    return byte(1) + byte(cell)


def undo_revive_cell(cell: int) -> bytes:
    return byte(2) + byte(cell)


def undo_restore(cell: int, length: int, words: Sequence[int]) -> bytes:
    """A cell gets back its value: the length and the five words that it had."""
    return byte(3) + byte(cell) + u64(length) + b"".join(u64(it) for it in words)


def undo_free_entry(entry: int) -> bytes:
    return byte(4) + byte(entry)


def undo_revive_entry(entry: int) -> bytes:
    return byte(5) + byte(entry)


# Operations on a region.

LOOK = byte(1)


def add(place: int) -> bytes:
    return byte(2) + u64(place)


def kill_entry(entry: int) -> bytes:
    return byte(3) + byte(entry)


def put(content: bytes) -> bytes:
    return byte(4) + value(content)


def read(cell: int) -> bytes:
    return byte(5) + byte(cell)


def change(cell: int, content: bytes) -> bytes:
    return byte(6) + byte(cell) + value(content)


def kill_cell(cell: int) -> bytes:
    return byte(7) + byte(cell)


def free_cell(cell: int) -> bytes:
    return byte(8) + byte(cell)


def revive_cell(cell: int) -> bytes:
    return byte(9) + byte(cell)


def restore(cell: int, length: int, words: Sequence[int]) -> bytes:
    return byte(10) + byte(cell) + u64(length) + b"".join(u64(it) for it in words)


def free_entry(entry: int) -> bytes:
    return byte(11) + byte(entry)


def revive_entry(entry: int) -> bytes:
    return byte(12) + byte(entry)


# Outcomes of operations.

def found(entry: int, place: int) -> bytes:
    return byte(1) + byte(entry) + u64(place)


def absent(overflows: bool = False) -> bytes:
    return byte(2) + byte(overflows)


def added(entry: int) -> bytes:
    return byte(3) + byte(entry)


NO_ENTRY = byte(4)
KILLED = byte(5)


def was_put(cell: int) -> bytes:
    return byte(6) + byte(cell)


NO_CELL = byte(7)


def got_value(content: bytes) -> bytes:
    return byte(8) + value(content)


CHANGED = byte(9)


def not_live(state: int) -> bytes:
    return byte(10) + u64(state)


def other_key(key: int) -> bytes:
    return byte(11) + u64(key)


def odd_length(length: int) -> bytes:
    return byte(12) + u64(length)


UNDONE = byte(13)


# Blocks: what an operation read and wrote.

def words_set(words: Sequence[int]) -> int:
    """The set of these words of a region: bit i stands for word i."""
    return sum(1 << word for word in set(words))


def block(
    key: int,
    region: int,
    operation: bytes,
    outcome: bytes,
    reads: Mapping[int, int] | None = None,
    writes: Mapping[int, int] | None = None,
    undo: bytes = NO_UNDO,
) -> bytes:
    """An operation for a key on a region. `reads` has the words that it read and what they held, `writes` those that it wrote and
    their new values."""
    reads, writes = reads or {}, writes or {}
    joined = 0
    for word in reads.values():
        joined ^= word
    new = b"".join(u64(writes[word]) for word in sorted(writes))
    sets = u64(words_set(list(reads))) + u64(joined) + u64(words_set(list(writes))) + new
    return u64(key) + u32(region) + operation + sets + outcome + undo


# Calls and answers.

def insert(key: int, content: bytes) -> bytes:
    return byte(1) + u64(key) + value(content)


def update(key: int, content: bytes) -> bytes:
    return byte(2) + u64(key) + value(content)


def delete(key: int) -> bytes:
    return byte(3) + u64(key)


def get(key: int) -> bytes:
    return byte(4) + u64(key)


OK = byte(1)
EXISTS = byte(2)
MISSING = byte(3)


def got(content: bytes) -> bytes:
    return byte(4) + value(content)


FULL_HEAP = byte(5)
FULL_INDEX = byte(6)


def odd(place: int) -> bytes:
    return byte(7) + u64(place)


# Records.

def format_record(index: int, heap: int, version: int = 1) -> bytes:
    return byte(1) + byte(version) + u32(index) + u32(heap)


def begin(transaction: int) -> bytes:
    return byte(2) + u64(transaction)


def operation(transaction: int, its_block: bytes) -> bytes:
    return byte(3) + u64(transaction) + its_block


def done(transaction: int, call: bytes, answer: bytes) -> bytes:
    return byte(4) + u64(transaction) + call + answer


def commit(transaction: int) -> bytes:
    return byte(5) + u64(transaction)


def ended(transaction: int) -> bytes:
    return byte(6) + u64(transaction)


def solo(number: int, parent: int, its_block: bytes) -> bytes:
    return byte(7) + u64(number) + u64(parent) + its_block


def audit_begin() -> bytes:
    return byte(8)


def audit_clean(begun: int) -> bytes:
    return byte(9) + u64(begun)


def audit_fail(begun: int, regions: Sequence[int]) -> bytes:
    return byte(10) + u64(begun) + u32s(regions)


def restarted(rolled_back: Sequence[int] = (), deleted: Sequence[int] = ()) -> bytes:
    return byte(11) + u64s(rolled_back) + u64s(deleted)


def back(transaction: int, its_block: bytes) -> bytes:
    return byte(12) + u64(transaction) + its_block


# Images and the anchor.

@dataclass(frozen=True)
class Undo:
    """An undo of a transaction's table entry: of a key and a region, spelled as in a record."""
    key: int
    region: int
    undo: bytes


def entry(transaction: int, state: int = 0, undos: Sequence[Undo] = ()) -> bytes:
    """A transaction in an image's table. State 0: active, 1: committed."""
    spelled = b"".join(u64(it.key) + u32(it.region) + it.undo for it in undos)
    return u64(transaction) + byte(state) + u32(len(undos)) + spelled


def table(*entries: bytes) -> bytes:
    return u32(len(entries)) + b"".join(entries)


def region(words: Mapping[int, int] | None = None) -> bytes:
    """The 64 words of a region: these, and 0 elsewhere."""
    words = words or {}
    return b"".join(u64(words.get(word, 0)) for word in range(WORDS))


@dataclass(frozen=True)
class Header:
    """The fields of an image's header behind its first eight bytes, but the length of the table."""
    index: int
    heap: int
    number: int
    place: int
    records: int
    length: int
    next: int


def image(header: Header, regions: Sequence[bytes], its_table: bytes = table(), table_length: int | None = None) -> bytes:
    """An image file. `table_length`: what the header says of it, if not the truth."""
    length = len(its_table) if table_length is None else table_length
    fields = u32(header.index) + u32(header.heap) + b"".join(
        u64(it) for it in (header.number, header.place, header.records, header.length, header.next, length))
    return b"DALIIMG1" + fields + b"".join(regions) + its_table


def anchor(checkpoints: int = 0) -> bytes:
    """One open gate for each completed checkpoint, and a closed one."""
    return OPEN * checkpoints + CLOSED


def files(log: bytes = b"", a: bytes = b"", b: bytes = b"", anchor: bytes = b"") -> dict[str, bytes]:
    """The files by their names, without the empty ones."""
    named = {"dali.log": log, "dali.a": a, "dali.b": b, "dali.anchor": anchor}
    return {name: content for name, content in named.items() if content}
