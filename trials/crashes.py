"""What a crash leaves of the store in memory: by each choice just the bytes of the rule that is worked out here by itself.

Of a file's bytes those stay that no call wrote since its last sync. Each other one, at a place p of file number n (log 0, images 1
and 2, anchor 3), goes by x = 31 choice + 17 n + 7 p modulo 3: 0 is what the last sync kept (0 past its end), 1 what was written, 2 the
byte choice + p modulo 256. Choice 0 keeps all that was written, 1 nothing."""
from collections.abc import Iterable

import formats as f
from shapes import Case, Run, lines


def cut(choice: int, file: int, synced: bytes, seen: bytes, written: Iterable[int]) -> bytes:
    """What a crash leaves of a file that has these bytes, of which those at these places were written since the last sync."""
    if choice < 2:
        return synced if choice else seen
    left = bytearray(seen)
    for at in set(written):
        kept = synced[at] if at < len(synced) else 0
        left[at] = [kept, seen[at], (choice + at) % 256][(31 * choice + 17 * file + 7 * at) % 3]
    return bytes(left)


# Over 1 2 3, at 1, come 7 8 9. The places 1, 2 and 3 have 31 choice + 17 file + 7 place:
#     choice 2, log     69, 76, 83: the old byte, the new one, 2 + 3
#     choice 3, log     100, 107, 114: the new byte, 3 + 2, and 0 past the old end
#     choice 2, image A 86, 93, 100; image B 103, 110, 117
#     choice 255, log   7912, 7919, 7926: 255 + 2 is 1 modulo 256
BY_HAND = [
    (0, 0, [1, 7, 8, 9]), (1, 2, [1, 2, 3]), (2, 0, [1, 2, 8, 5]), (3, 0, [1, 7, 5, 0]), (4, 0, [1, 5, 3, 9]),
    (2, 1, [1, 3, 3, 9]), (2, 2, [1, 7, 4, 0]), (2, 3, [1, 2, 8, 5]), (255, 0, [1, 7, 1, 0]),
]
for its_choice, its_file, its_bytes in BY_HAND:
    assert list(cut(its_choice, its_file, bytes([1, 2, 3]), bytes([1, 7, 8, 9]), range(1, 4))) == its_bytes

CHOICES = [0, 1, 2, 3, 4, 5, 255, 1_000_000]

FORMATTED = f.log(f.formatted(1, 1))
GATE = len(FORMATTED) - 1
BODY = f.batch(f.begin(1), f.commit(1))

# A commit writes the batch behind its closed gate, with the next gate; it syncs; it opens the gate; and it syncs.
WRITTEN = FORMATTED + BODY[1:] + f.CLOSED
OPENED = f.log(f.formatted(1, 1), BODY)

SCRIPT = lines("size 1 1; fuse {}; client 1; begin; commit; end; crash {}")
OUT = lines("fuse {}; 1 begin 1; 1 commit store stopped; crash {}")


def stopped(calls: int, choice: int, left: bytes) -> Run:
    """A first commit that is stopped behind so many calls, and cut."""
    return Run(SCRIPT.format(calls, choice), OUT.format(calls, choice), after=f.files(log=left, anchor=f.anchor()))


def cut_at_the_end(choice: int) -> Run:
    """The same batch, which no sync keeps, cut by the crash behind a run."""
    left = cut(choice, 0, FORMATTED, WRITTEN, range(GATE + 1, len(WRITTEN)))
    return Run(
        lines("size 1 1; fuse 1; client 1; begin; commit; end"), lines("fuse 1; 1 begin 1; 1 commit store stopped"),
        crash=choice, after=f.files(log=left, anchor=f.anchor()))


CASES = [
    *(Case(f"a batch that no sync keeps, cut by {choice}",
        stopped(1, choice, cut(choice, 0, FORMATTED, WRITTEN, range(GATE + 1, len(WRITTEN))))) for choice in CHOICES),
    *(Case(f"a batch that is synced, cut by {choice}", stopped(2, choice, WRITTEN)) for choice in CHOICES),
    *(Case(f"a gate that no sync keeps, cut by {choice}",
        stopped(3, choice, cut(choice, 0, WRITTEN, OPENED, [GATE]))) for choice in CHOICES),
    *(Case(f"a batch that no sync keeps, cut behind the run by {choice}", cut_at_the_end(choice)) for choice in CHOICES),
]
