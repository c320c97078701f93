"""Digests: of rows by hand, equal for equal entries in any order, different for others, and each refusal."""
import hashlib

from conftest import outside, refusal
from hypothesis import given
from hypothesis import strategies as some

import pfair

# of all kinds; of those of one kind each differs from another one in one field
ENTRIES = [pfair.arrive("a", 1, 2), pfair.arrive("b", 1, 2), pfair.arrive("a", 2, 2), pfair.arrive("a", 1, 3)]
ENTRIES += [pfair.arrive("a", 1, 2, early=True), pfair.arrive("a", 1, 2, at=3), pfair.arrive("a", 1, 2, at=3, floor=2)]
ENTRIES += [pfair.late("a", 2, 3, at=3), pfair.late("a", 4, 3, at=3), pfair.late("a", 2, 4, at=3)]
ENTRIES += [pfair.depart("a", at=3), pfair.promise(0), pfair.promise(9)]
ROWS = {"1,1,2,3,arrive,a,1,2,false,-,-": 6, "1,2,0,0,arrive,a,1,2,true,-,-": 4, "1,3,0,3,late,a,-,-,-,2,3": 7}
ROWS |= {"1,4,0,3,depart,a,-,-,-,-,-": 10, "1,5,9,-,-,-,-,-,-,-,-": 12}


def holding(entries, order=None):
    one = pfair.Dispatcher(2, 6, 6, 7)
    for place in order or range(len(entries)):
        one.take(1, place + 1, entries[place])
    return one


def test_rows_by_hand(monkeypatch):
    one, read = holding([ENTRIES[place] for place in ROWS.values()]), pfair.Dispatcher.held
    monkeypatch.setattr(pfair.Dispatcher, "held", lambda one, *key: read(one, *key) if one._lock._is_owned() else None)
    for count in range(6):
        assert one.digest(1, count) == hashlib.sha256("".join(f"{row}\n" for row in [*ROWS][:count]).encode()).digest()


@given(some.lists(some.sampled_from(ENTRIES), min_size=1, max_size=6), some.data())
def test_equal_entries_alone(log, data):
    place, order = data.draw(some.integers(0, len(log) - 1)), data.draw(some.permutations(range(len(log))))
    unlike = [*log[:place], data.draw(some.sampled_from([one for one in ENTRIES if one != log[place]]))]
    one, same, other = holding(log), holding(log, order), holding([*unlike, *log[place + 1 :]])
    for count in range(len(log) + 1):
        assert one.digest(1, count) == same.digest(1, count)
        assert (one.digest(1, count) == other.digest(1, count)) == (count <= place)


def test_refusals():
    """Of two numbers that aren't held once the first one counts, and a number that can't be before both."""
    one = holding(ENTRIES[:5], [0, 2, 4])
    refusal(pfair.NotHeld, "there is no entry 2 of processor 1", one.digest, 1, 5)
    one.take(1, 2, ENTRIES[1]), one.take(1, 3, ENTRIES[0])
    text = f"{pfair.Torn.text}: entry 3 of processor 1"
    assert refusal(pfair.Torn, text, one.digest, 1, 7) == {"processor": 1, "number": 3}
    assert len(one.digest(1, 2)) == 32 == len(one.digest(0, 0))
    refusal(pfair.NoSuchNumber, f"{pfair.NoSuchNumber.text}: entry 8 of processor 1", one.digest, 1, 8)
    refusal(pfair.NoSuchProcessor, f"{pfair.NoSuchProcessor.text}: processor 2", one.digest, 2, 8)
    outside("processor", 256, one.digest, 256, 1, most=255)
    outside("count", 2**32, one.digest, 1, 2**32, most=2**32 - 1)
