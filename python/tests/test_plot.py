"""Pictures by Matplotlib: each thing that is drawn, with its place, colour and width."""
import hashlib
import io
import os
import pathlib
from collections import Counter
from xml.etree import ElementTree

import matplotlib
import pytest
from made_rows import CASES
from matplotlib.image import imread

from pfair import _plot, picture

SVG = "{http://www.w3.org/2000/svg}"
SUMS = pathlib.Path(__file__).parent / "pictures" / "plots"


def rounded(values):
    return [[round(float(value), 3) for value in row] for row in values]


def told(figure):
    """Lines that tell all that a figure has, in the order in which it is drawn."""
    axes = figure.axes[0]
    yield f"{rounded([figure.get_size_inches()])} {axes.axison} {axes.get_position().bounds}"
    for text in axes.texts:
        font = (text.get_color(), round(text.get_fontsize(), 3), text.get_weight())
        yield f"{text.get_position()} {text.get_text()} {font} {text.get_ha()} {text.get_va()} {text.get_zorder()}"
    for made in axes.collections:
        paths = [(rounded(path.vertices), str(path.codes)) for path in made.get_paths()]
        colours = (rounded(made.get_facecolor()), rounded(made.get_edgecolor()))
        widths = [round(float(width), 3) for width in made.get_linewidth()]
        yield f"{type(made).__name__} {made.get_zorder()} {made.get_hatch()} {colours} {widths} {paths}"
        if type(made).__name__ == "LineCollection":
            dashes = [(round(float(begins), 3), some and rounded([some])) for begins, some in made.get_linestyle()]
            yield f"{dashes}"
        if type(made).__name__ == "PathCollection":
            yield f"{rounded([made.get_sizes()])} {rounded(made.get_offsets())} {made.get_clip_on()}"


@pytest.mark.parametrize("name, kind", [("every_kind", "schedule"), ("lags", "lags"), ("widths", "schedule")])
def test_plot(name, kind):
    """The figure has what the picture has, and its looks the kept sum; PFAIR_KEEP_PICTURES=yes writes that anew."""
    svg = picture.svg(CASES[name][0], kind, 0, 14)
    root = ElementTree.fromstring(svg)
    with matplotlib.rc_context({"font.weight": "bold", "patch.force_edgecolor": True}):
        figure = _plot.Plot(svg, 5.0).figure
    wide, high = int(root.get("width")), int(root.get("height"))
    assert figure.get_size_inches().tolist() == [5.0, 5.0 * high / wide]
    axes = figure.axes[0]
    assert (axes.get_xlim(), axes.get_ylim()) == ((0, wide), (high, 0))
    texts = [((int(text.get("x")), int(text.get("y"))), text.text) for text in root.iter(SVG + "text")]
    assert sorted((text.get_position(), text.get_text()) for text in axes.texts) == sorted(texts)
    bars = Counter(type(made).__name__ for made in axes.collections for _ in made.get_paths())["PolyCollection"]
    assert bars == sum(1 for _ in root.iter(SVG + "rect")) - 2
    marks = [made for made in axes.collections if type(made).__name__ == "PathCollection"]
    assert sum(len(made.get_offsets()) for made in marks) == sum(1 for _ in root.iter(SVG + "use"))
    digest = hashlib.sha256("\n".join(told(figure)).encode()).hexdigest()
    kept = dict(line.split() for line in SUMS.read_text().splitlines()) if SUMS.exists() else {}
    if os.environ.get("PFAIR_KEEP_PICTURES"):
        lines = [f"{key} {value}\n" for key, value in sorted({**kept, name: digest}.items())]
        SUMS.write_text("".join(lines))
    else:
        assert digest == kept[name]


def test_files():
    svg = picture.svg(CASES["lags"][0], "lags", 0, 4)
    pdf, png = _plot.file_of(svg, "pdf"), _plot.file_of(svg, "png")
    assert pdf.startswith(b"%PDF") and b"/FontFile2" in pdf
    # 7 inches wide, 200 points to the inch
    assert png.startswith(b"\x89PNG") and int.from_bytes(png[16:20], "big") == 1400
    # on white, whatever is behind it
    assert imread(io.BytesIO(png))[0, 0].tolist() == [1, 1, 1, 1]
