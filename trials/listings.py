"""What `show` prints of words in memory: the records that index and heap store, found by walks over index regions.

Each image stands in a file, behind which the log has no record. `flag R N` is the first word of a region, `entry R E STATE KEY PLACE` an
entry of an index region, and `cell R C STATE KEY LENGTH TEXT` a cell of a heap region with the text in its value words, zeros behind
it. A heap region's first word is 1."""
import formats as f
from shapes import Case, Run, lines


def words_of(text: str) -> dict[int, int]:
    """The five words of a cell's value."""
    padded = text.encode().ljust(40, b"\0")
    return {word: int.from_bytes(padded[8 * word:8 * word + 8], "big") for word in range(5)}


def put(phrase: str, regions: list[dict[int, int]]) -> None:
    """Sets the words that a phrase says."""
    kind, *rest = phrase.split(" ")
    if kind == "flag":
        regions[int(rest[0])][0] = int(rest[1])
        return
    region, number, *numbers = (int(it) for it in rest[:5])
    first = 1 + 3 * number if kind == "entry" else 8 * number
    regions[region] |= dict(zip(range(first, first + 3), numbers))
    if kind == "cell":
        regions[region] |= {first + 3 + word: content for word, content in words_of(rest[5]).items()}


def case(name: str, index: int, heap: int, phrases: list[str], records: list[str]) -> Case:
    regions = [{} for _ in range(index)] + [{0: 1} for _ in range(heap)]
    for phrase in phrases:
        put(phrase, regions)
    header = f.Header(index, heap, number=1, place=15, records=1, length=10, next=1)
    files = f.files(log=f.log(f.formatted(index, heap)), a=f.image(header, [f.region(it) for it in regions]), anchor=f.anchor(1))
    wanted = lines("rolled back none; deleted none", *records, f"records {len(records)}")
    return Case(name, Run("open\nshow\n", wanted, after="same"), files=files)


CASES = [
    case("nothing is stored", 1, 1, [], []),
    case("one record", 1, 1, ["entry 0 0 1 5 9", "cell 1 1 1 5 3 abc"], ["5 abc"]),
    case("a stray write is read as it stands", 2, 3, [
          "entry 0 0 1 4 25",
          "cell 3 1 1 4 3 `bc",
          "entry 0 1 1 6 17",
          "cell 2 1 1 6 2 qq",
          "entry 1 0 1 5 33",
          "cell 4 1 1 5 1 y"],
         ["4 `bc", "5 y", "6 qq"]),
    case("the last entry and the last cell", 1, 1, ["entry 0 20 1 5 15", "cell 1 7 1 5 3 abc"], ["5 abc"]),
    case("a walk over a raised flag", 2, 4, ["flag 0 1", "entry 1 0 1 42 17", "cell 2 1 1 42 1 v"], ["42 v"]),
    case("no walk over a flag that isn't raised", 2, 4, ["entry 1 0 1 42 17", "cell 2 1 1 42 1 v"], []),
    case("a walk in a circle, over any flag but 0", 3, 1,
         ["flag 2 7", "flag 0 2", "entry 1 20 1 5 31", "cell 3 7 1 5 1 w"],
         ["5 w"]),
    case("no walk past a flag that isn't raised", 3, 1, ["flag 2 7", "entry 1 20 1 5 31", "cell 3 7 1 5 1 w"], []),
    case("entries that are free, dead or odd", 1, 1,
         ["entry 0 0 0 5 9", "entry 0 1 2 5 9", "entry 0 2 3 5 9", "cell 1 1 1 5 3 abc"],
         []),
    case("a cell that is free", 1, 1, ["entry 0 0 1 5 9", "cell 1 1 0 5 3 abc"], []),
    case("a cell that is dead", 1, 1, ["entry 0 0 1 5 9", "cell 1 1 2 5 3 abc"], []),
    case("a cell of another key", 1, 1, ["entry 0 0 1 5 9", "cell 1 1 1 6 3 abc"], []),
    case("a value without a byte", 1, 1, ["entry 0 0 1 5 9", "cell 1 1 1 5 0 abc"], []),
    case("a value that is too long", 1, 1, ["entry 0 0 1 5 9", "cell 1 1 1 5 41 abc"], []),
    case("places that name no heap cell", 1, 1, [
          "entry 0 0 1 5 1",
          "entry 0 1 1 5 8",
          "entry 0 2 1 5 16",
          "entry 0 3 1 5 17",
          "entry 0 4 1 5 18446744073709551615",
          "cell 1 1 1 5 3 abc"],
         []),
    case("the longest value", 1, 1,
         ["entry 0 0 1 5 9", "cell 1 1 1 5 40 0123456789abcdefghijklmnopqrstuvwxyz~!@#"],
         ["5 0123456789abcdefghijklmnopqrstuvwxyz~!@#"]),
    case("bytes behind a value", 1, 1, ["entry 0 1 1 6 10", "cell 1 2 1 6 1 abcdefghi"], ["6 a"]),
    case("by key, then by value, a prefix first", 1, 1, [
          "entry 0 0 1 9 9",
          "cell 1 1 1 9 1 b",
          "entry 0 1 1 9 10",
          "cell 1 2 1 9 2 ab",
          "entry 0 2 1 9 11",
          "cell 1 3 1 9 1 a",
          "entry 0 3 1 10 12",
          "cell 1 4 1 10 1 a",
          "entry 0 4 1 2 13",
          "cell 1 5 1 2 1 z"],
         ["2 z", "9 a", "9 ab", "9 b", "10 a"]),
    case("equal records once", 1, 1,
         ["entry 0 0 1 9 9", "cell 1 1 1 9 2 ab", "entry 0 1 1 9 10", "cell 1 2 1 9 2 ab", "entry 0 2 1 9 9"],
         ["9 ab"]),
]
