"""matplotlib, where it is installed: how a picture begins, and how it is saved."""
import io
import os
import sys
from typing import Any

from streetsim.base.arrays import numpy as np
from streetsim.base.files import Fault, whole_path

# What has no hints: the module pyplot, a picture, its axes, lines on them.
Pyplot = Any
Figure = Any
Axes = Any
Lines = Any
Image = Any
MOST_LETTERS = 160  # of a line of text
DPI, COLOURS = 95, 64  # of a PNG: dots an inch, colours that are kept, and as many means of others
DATES = {"svg": {"Date": None}, "pdf": {"CreationDate": None}}  # without: equal runs give equal bytes


def pyplot_if_installed() -> Pyplot:
    """matplotlib's pyplot; None where it is not installed, which is said on standard error."""
    try:
        return load_pyplot()
    except Fault as fault:
        print(f"no picture: {fault}", file=sys.stderr)
        return None


def load_pyplot() -> Pyplot:
    """matplotlib's pyplot, without a display and with the settings of all pictures; Fault where it is not installed."""
    try:
        import matplotlib
    except ImportError:
        raise Fault("pictures need matplotlib (Debian: apt install python3-matplotlib)") from None
    matplotlib.use("Agg")
    from matplotlib import pyplot

    pyplot.rcParams.update({"font.size": 9, "svg.hashsalt": "streetsim", "grid.color": "#dddddd"})
    pyplot.rcParams.update({"axes.grid": True, "axes.axisbelow": True, "text.parse_math": False})
    return pyplot


def picture_format(path: str) -> str:
    """The format of a picture by the end of its name: png, svg or pdf; Fault for any other."""
    ending = os.path.splitext(path)[1].lower().removeprefix(".")
    if ending not in ("png", *DATES):
        raise Fault(f"{path}: a picture's name ends with .png, .svg or .pdf")
    return ending


def save_picture(figure: Figure, path: str) -> None:
    """Writes a picture in the format of its name, whole or not at all, long texts short; a PNG with few colours, which
    keeps it small. Fault for a name with another ending than png, svg or pdf, or where it cannot be written."""
    ending = picture_format(path)
    shorten_texts(figure)
    with whole_path(path) as half:
        if ending != "png":
            figure.savefig(half, format=ending, bbox_inches="tight", facecolor="white", metadata=DATES[ending])
            return
        from PIL import Image

        raw = io.BytesIO()
        figure.savefig(raw, dpi=DPI, bbox_inches="tight", facecolor="white")
        with_few_colours(Image.open(raw).convert("RGB")).save(half, format="PNG", optimize=True)


def shorten_texts(figure: Figure) -> None:
    """Makes texts and labels short that would make the picture wider than any picture may be, as long names do."""
    from matplotlib.axis import Axis
    from matplotlib.text import Text

    for axis in figure.findobj(Axis):
        labels = [label.get_text() for label in axis.get_ticklabels()]
        if any(map(is_long, labels)):
            axis.set_ticks(axis.get_ticklocs(), list(map(short_text, labels)))
    for text in figure.findobj(Text):
        if is_long(text.get_text()):
            text.set_text(short_text(text.get_text()))


def is_long(text: str) -> bool:
    """Whether a line of a text is too long for a picture."""
    return any(len(line) > MOST_LETTERS for line in text.split("\n"))


def short_text(text: str) -> str:
    """A text whose long lines lack their middles."""
    half = MOST_LETTERS // 2
    lines = text.split("\n")
    return "\n".join(f"{line[:half]} .. {line[-half:]}" if len(line) > MOST_LETTERS else line for line in lines)


def with_few_colours(image: Image) -> Image:
    """A picture with few colours: those that most of its pixels have, as they are, and as many means, of which all
    others take the nearest. So what is drawn in one colour keeps it, however little of it there is."""
    pixels = np.asarray(image).reshape(-1, 3).astype(np.int64)
    found, inverse, counts = np.unique(pixels @ (1 << 16, 1 << 8, 1), return_inverse=True, return_counts=True)
    known = np.stack([found >> 16, found >> 8 & 255, found & 255], axis=1)
    most = known[np.argsort(-counts, kind="stable")[:COLOURS]]
    means = np.array(image.quantize(COLOURS).getpalette()[: 3 * COLOURS]).reshape(-1, 3)
    kept = np.concatenate([most, means])
    nearest = ((known[:, None] - kept) ** 2).sum(axis=2).argmin(axis=1).astype(np.uint8)
    made = image.convert("P")
    made.putdata(nearest[inverse].ravel())
    made.putpalette(kept.astype(np.uint8).tobytes())
    return made
