"""Pictures: small ones byte for byte, and what holds of any, over made up rows and over those of the library."""
import hashlib
import itertools
import os
import pathlib
import random
import re
from collections import Counter
from xml.etree import ElementTree

import pytest
from hypothesis import example, given, settings
from hypothesis import strategies as st

import pfair
from conftest import EXAMPLES, script_of
from made_rows import CASES, KEPT, WHOLE, Rows, crowd
from pfair import _figure, _lags_figure, picture
from recorded import drawn, rows_of, stays_of

FILES = sorted(EXAMPLES.glob("*.toml"))
STORED = pathlib.Path(__file__).parent / "pictures"
SVG = "{http://www.w3.org/2000/svg}"
LAG_FIELDS = ["task", "time", "numerator", "period"]
ANCHORS = {"name": 1, "absent": 1, "side": 1, "beyond": 1, "scale": 0.5, "on": 0.5, "on dark": 0.5, "more": 0.5}
SIZES = {"title": 14, "side": 10, "scale": 10, "on": 9, "on dark": 9, "weight": 8, "more": 9, "number": 9, "beyond": 9}


@pytest.mark.parametrize("name, kind, start, stop", KEPT)
def test_kept_pictures(name, kind, start, stop):
    """Pictures that were looked at: some are kept, and the sums of all. PFAIR_KEEP_PICTURES=yes writes them anew."""
    drawn, title = picture.svg(CASES[name][0], kind, start, stop), f"{name}.{kind}.{start}.{stop}"
    assert_inside(drawn)
    sums = dict(line.split() for line in (STORED / "sums").read_text().splitlines())
    digest, file = hashlib.sha256(drawn.encode()).hexdigest(), STORED / f"{title}.svg"
    if os.environ.get("PFAIR_KEEP_PICTURES"):
        lines = [f"{key} {value}\n" for key, value in sorted({**sums, title: digest}.items())]
        (STORED / "sums").write_text("".join(lines))
        if title in WHOLE:
            file.write_text(drawn)
    else:
        assert title not in WHOLE or drawn == file.read_text()
        assert digest == sums[title]


# ---- what holds of any picture


def assert_inside(drawn):
    """Well-formed XML, with each shape and each text on the page."""
    root = ElementTree.fromstring(drawn)
    wide, high = int(root.get("width")), int(root.get("height"))
    assert root.get("viewBox") == f"0 0 {wide} {high}" and root.get("role") == "img"
    for element in root.iter():
        if element.tag in (SVG + "path", SVG + "circle", SVG + "pattern") and element.get("id"):
            continue
        at = {key: float(element.get(key, 0)) for key in ("x", "y", "x1", "y1", "x2", "y2")}
        across = [at["x"], at["x1"], at["x2"]]
        down = [at["y"], at["y1"], at["y2"]]
        if element.tag == SVG + "rect" and element.get("width") != "100%":
            size = float(element.get("width")), float(element.get("height"))
            assert min(size) >= 0, element.attrib
            across, down = [*across, at["x"] + size[0]], [*down, at["y"] + size[1]]
        if element.tag == SVG + "text":
            style = element.get("class").removesuffix(" small")
            length = len(element.text) * 0.62 * SIZES.get(style, 11)
            left = at["x"] - length * ANCHORS.get(style, 0)
            across, down = [left, left + length], [at["y"] - SIZES.get(style, 11), at["y"] + 3]
        is_inside = 0 <= min(across) and max(across) <= wide and 0 <= min(down) and max(down) <= high
        assert is_inside, (element.attrib, element.text)


SCRIPTS = st.builds(lambda seed: drawn(random.Random(seed)), st.integers(0, 2**32))


def bars_of(drawn, layer):
    """What each bar of a layer tells, with its left and right edge and its class."""
    group = next(group for group in ElementTree.fromstring(drawn).iter(SVG + "g") if group.get("id") == layer)
    bars = [(one.findtext(SVG + "title"), int(one.get("x")), int(one.get("width")), one.get("class")) for one in group]
    return [(told, x, x + wide, style) for told, x, wide, style in bars]


def range_of(schedule, data):
    start = data.draw(st.integers(0, schedule.script.slots - 1))
    return start, data.draw(st.integers(start + 1, schedule.script.slots))


def windows_in_sight(schedule, start, stop):
    """The windows that meet the slots, by what is known before `stop`. Those of subtasks that never ran end where their
    task departs."""
    quanta = [row for row in rows_of(schedule.quanta) if row[0] < stop]
    for stay in stays_of(schedule.script, schedule.decisions[schedule.decisions["slot"] < stop]):
        ran = sum(name == stay.name and stay.joined <= slot < stay.left for slot, name, *_ in quanta)
        for index in itertools.count(1):
            opens, closes, end = stay.release(index), stay.deadline(index), stop
            if stay.left < schedule.script.slots and index > ran:
                closes, end = min(closes, stay.left), min(end, stay.left)
            if opens >= end:
                break
            if closes > start:
                yield f"{stay.name}, subtask {index}, window {opens} to {closes}", opens, closes


@settings(max_examples=100, deadline=None)
@given(SCRIPTS, st.data())
def test_one_bar_for_each_window_and_quantum(script, data):
    schedule = pfair.schedule(script)
    start, stop = range_of(schedule, data)
    drawn = schedule.svg(start, stop)
    assert_inside(drawn)
    lines = ElementTree.fromstring(drawn).iter(SVG + "line")
    left = min(int(one.get("x1")) for one in lines if one.get("class") in ("grid", "tick"))
    wide = _figure.slot_width(stop - start)

    def x(slot):
        return left + (min(max(slot, start), stop) - start) * wide

    windows = ((told, x(opens), x(closes), "window") for told, opens, closes in windows_in_sight(schedule, start, stop))
    assert Counter(bars_of(drawn, "windows")) == Counter(windows)
    quanta, cells = [], []
    for slot, task, index, place in rows_of(schedule.quanta):
        if start <= slot < stop:
            told = f"{task}, subtask {index}, slot {slot}, processor {place}"
            quanta.append((told, x(slot) + 2, x(slot + 1) - 2, f"p{place}"))
            cells.append((told, x(slot), x(slot + 1) - 1, f"p{place}"))
    assert (bars_of(drawn, "quanta"), bars_of(drawn, "processors")) == (quanta, cells)


@settings(max_examples=100, deadline=None)
@given(SCRIPTS, st.data())
def test_one_step_for_each_lag(script, data):
    schedule = pfair.schedule(script)
    start, stop = range_of(schedule, data)
    drawn = schedule.svg(start, stop, "lags")
    assert_inside(drawn)
    told = [group.findtext(SVG + "title") for group in ElementTree.fromstring(drawn).iter(SVG + "g")]
    lags = ((task.decode(), *more) for task, *more in schedule.lags(start, stop)[LAG_FIELDS].tolist())
    assert told == [f"{task}, time {time}: lag {above}/{below}" for task, time, above, below in lags]


@settings(max_examples=100, deadline=None)
@given(st.text(st.characters(min_codepoint=32, max_codepoint=0x2FF), min_size=1, max_size=16))
@example("a<b>&'c'\"")
def test_text_is_escaped(name):
    rows = Rows(slots=3).join(0, name, 1, 2).run(0, 0, name, 1).lag(name, 2, 1).refuse(1, name, 20).leave(2, name, 3)
    for kind in picture.PICTURES:
        texts = {text.text for text in ElementTree.fromstring(picture.svg(rows, kind)).iter(SVG + "text")}
        assert name in texts


def test_names_are_cut_to_their_room():
    cut = {room: _figure.shortened(["camera"], room)["camera"] for room in (11, 12, 17, 18, 26, 27, 38, 39)}
    assert cut == {11: "", 12: "c.", 17: "c.", 18: "ca.", 26: "ca.", 27: "cam.", 38: "came.", 39: "camera"}
    assert [_figure.shortened("x", room) for room in (5, 6)] == [{"x": ""}, {"x": "x"}]


def test_names_that_begin_alike_are_told_apart():
    """By their last letters, with whole numbers if these fit, or by those in which they differ."""
    names = "worker12 worker13 radar radio axle_a_left axle_b_left lane6y44 lane7y55 camera".split()
    fitting = {39: "wor.12 wor.13 radar radio axle.a axle.b lane6. lane7. camera", 17: ".2 .3 .r .o .a .b .4 .5 c."}
    for room, wanted in {**fitting, 27: "w.12 w.13 ra.r ra.o ax.a ax.b l.44 l.55 cam."}.items():
        assert list(_figure.shortened(names, room).values()) == wanted.split()
    assert set(_figure.shortened(names, 11).values()) == {""}


@given(st.lists(st.from_regex("[a-c][a-c1]{0,15}", fullmatch=True), unique=True, max_size=9), st.integers(0, 60))
def test_no_two_names_are_cut_alike(names, room):
    short = _figure.shortened(names, room)
    assert list(short) == names
    shown = [words for words in short.values() if words]
    assert len(set(shown)) == len(shown)
    for name, words in short.items():
        head, _, tail = words.partition(".")
        assert _figure.name_width(words.replace(".", "")) * 3 // 4 + 6 * ("." in words) <= room or words == ""
        assert name.startswith(head) and tail in name and (words == name or "." in words or words == "")
        assert words == name or _figure.name_width(name) * 3 // 4 > room


def test_numbers_of_a_scale_have_room():
    assert [_lags_figure.lag_sizes(4_096, tasks).lane for tasks in (24, 25, 60, 61)] == [20, 14, 14, 9]
    for wide in (2, 4, 8, 12, 18, 28, 40):
        for end in (1, 9, 10, 999, 1000, 9999, 10_000, 1_000_000):
            step = _figure.scale_step(wide, end)
            need = max(24, 7 * len(str(end)) + 4)
            assert step * wide >= need
            smaller = [some for some in (1, 2, 5, 10, 20, 50, 100, 200, 500) if some < step]
            assert step in (1, 2, 5, 10, 20, 50, 100) and (not smaller or smaller[-1] * wide < need)


def test_slots_that_no_picture_shows():
    rows = Rows(slots=5000)
    refused = {
        **{both: "slots from %d to before %d refused: there are none" % both for both in ((3, 3), (4, 2))},
        (0, 5001): "slots 0 to 5000 refused: the file has 5000",
        (5000, 5001): "slots 5000 to 5000 refused: the file has 5000",
        (0, 4097): "slots 0 to 4096 refused: 4,096 at most",
    }
    for slots, said in refused.items():
        with pytest.raises(ValueError, match=f"^{re.escape(said)}$"):
            picture.svg(rows, "schedule", *slots)
    with pytest.raises(ValueError, match="^no such picture: table$"):
        picture.svg(rows, "table", 0, 1)
    assert picture.svg(rows, "schedule", 904) == picture.svg(rows, "schedule", 904, 5000)
    assert picture.svg(rows, stop=4096) == picture.svg(rows, "schedule", 0, 4096)


def test_titles_and_keys():
    """A title of one's own stands alone; an empty one, and a key that isn't wanted, take no room."""
    rows = CASES["every_kind"][0]
    for kind, told in (("schedule", "Schedule"), ("lags", "Lags")):
        drawn = {}
        for title in (None, "Mine <&> yours", "m" * 90, ""):
            for has_key in (True, False):
                svg = picture.svg(rows, kind, 0, 14, title, has_key)
                assert_inside(svg)
                root = ElementTree.fromstring(svg)
                texts = [one.text for one in root.iter(SVG + "text")]
                assert texts[0] == (told if title is None else title or texts[0]) == (root[0].text or texts[0])
                assert ("processors: 2, frame: 12, slots: 0 to 13 of 130" in texts) == (title is None)
                assert ("1/2 is a weight" in texts) == has_key and (root.get("width") == "1022") == (title == "m" * 90)
                drawn[title, has_key] = int(root.get("height"))
        assert drawn[None, True] - 18 == drawn["m" * 90, True] == drawn["", True] + 24 > drawn["", False] + 24


def test_few_slots_of_many_processors():
    """Each quantum has room for its index and its processor."""
    svg = picture.svg(crowd(70, 64, 6), "schedule", 0, 6)
    assert_inside(svg)
    words = [one.text for one in ElementTree.fromstring(svg).iter(SVG + "text") if "small" in one.get("class")]
    assert len(words) == 3 * 64 and all(re.fullmatch(r"\d+ p\d+", one) for one in words)


def test_numbers_of_lags_are_beside_their_bounds():
    root = ElementTree.fromstring(picture.svg(CASES["lags"][0], "lags", 0, 14))
    lines = [int(one.get("y1")) for one in root.iter(SVG + "line") if one.get("class") == "bound"]
    numbers = [one for one in root.iter(SVG + "text") if one.get("class") == "beyond"]
    assert len(numbers) > 5 and len(lines) == 2 * 3 + 1
    assert not any(int(one.get("y")) - 8 <= y <= int(one.get("y")) + 1 for one in numbers for y in lines)


def test_page():
    svg = picture.svg(CASES["every_kind"][0])
    page = picture.page(svg)
    folder = pathlib.Path(picture.__file__).parent
    css, js = ((folder / name).read_text() for name in ("page.css", "page.js"))
    assert page == picture.PAGE.replace("{}", "%s") % (css, svg, js)
    assert page.startswith("<!DOCTYPE html>") and page.endswith("</body>\n</html>\n")
    # each key that the page names does something
    assert "wheel or + and -: zoom" in page and "0: as at first" in page and "drag or arrows: move" in page
    keys = re.search(r"const KEYS = {(.*?)\n};", js, re.S)[1]
    assert all(f'"{key}":' in keys for key in "+-0") and keys.count(" Arrow") == 4
    assert not re.search(r"(src|href)\s*=|url\(|https?:|import\s|fetch\(|XMLHttp", page.replace(svg, ""))


# ---- over the library


@pytest.mark.parametrize("file", FILES, ids=lambda file: file.stem)
def test_pictures_of_the_examples(file):
    """The pictures of the library's rows are those of the program's, which stand beside the examples."""
    schedule = pfair.schedule(script_of(file))
    for kind in picture.PICTURES:
        text = file.with_suffix(f".{kind}.svg").read_text()
        assert schedule.svg(picture=kind) == text == schedule.svg(0, schedule.script.slots, kind)
        assert schedule.svg(1, 2, kind).startswith("<svg ")
    assert schedule._repr_svg_() == schedule.svg()
    assert schedule.plot(1, 3, "lags", 4.0).get_size_inches()[0] == 4.0
