"""The model's own error: by how much forecasts of a kind were off, beside chance, where the truth is known."""
from __future__ import annotations

from collections.abc import Iterator
from dataclasses import dataclass
from html import escape

from streetsim.model.mapping import Map
from streetsim.report.page_markup import table

PAGE, CHAPTER = "tools/CALIBRATION.md", "'What a calibration gains'"  # where it was measured


@dataclass(frozen=True, slots=True)
class ForecastError:
    """Of a kind of forecast by which share of the true changes it was off, without and with a calibrated base, and on
    how many streets."""

    kind: str
    uncalibrated: float
    calibrated: float
    streets: int


# Made by bench/run calibrated, beside SUMO's drivers.
ERRORS: tuple[ForecastError, ...] = (
    ForecastError("a green wave", 0.19, 0.23, 14),
    ForecastError("seconds of green moved", 0.46, 0.31, 14),
    ForecastError("a tenth more vehicles", 0.51, 0.60, 8),
    ForecastError("a closed lane", 1.48, 0.13, 6),
)
WAVE, SPLIT, GROWTH, LANE = ERRORS
OF_CALIBRATION = ("speeds", "cut", "shares")  # options that an import has from a calibration


def is_calibrated(mapping: Map) -> bool:
    """Whether an import had drivers that were measured."""
    return any(mapping.options.get(name) for name in OF_CALIBRATION)


def error_told(kind: ForecastError, calibrated: bool) -> str:
    """By how much forecasts of a kind were off, as a sentence; calibrated: whether the base is."""
    base, share = ("a calibrated", kind.calibrated) if calibrated else ("an uncalibrated", kind.uncalibrated)
    size = "more than the change itself" if share > 1 else f"{100 * share:.0f} % of the change"
    of = f"were off by {size} on {kind.streets} streets"
    advice = ": streetsim-calibrate first" if not calibrated and kind.calibrated < kind.uncalibrated else ""
    return f"For {kind.kind}, forecasts with {base} base {of}{advice}."


def errors_told() -> str:
    """What a page of a forecast says of the model's own error, as HTML."""
    said = (
        "Beside chance the model has an error of its own: by so much of the true change such forecasts were off. The "
        "truth is that of SUMO, on so many streets (in brackets); where a lane was closed, a survey told how much of "
        f"their green those who turn left get. Measured in {PAGE}, {CHAPTER}."
    )
    return f'<p class="small">{escape(said)}</p>{errors_table()}'


def errors_table() -> str:
    """The table of the errors, as HTML."""
    rows = [
        ["uncalibrated", *(f"{100 * one.uncalibrated:.0f} %" for one in ERRORS)],
        ["calibrated", *(f"{100 * one.calibrated:.0f} %" for one in ERRORS)],
    ]
    return table(["base", *(f"{one.kind} ({one.streets})" for one in ERRORS)], rows)


def error_lines() -> Iterator[str]:
    """The errors in a line, for the terminal."""
    told = ", ".join(f"{one.kind} {100 * one.uncalibrated:.0f} % ({100 * one.calibrated:.0f} %)" for one in ERRORS)
    yield f"beside chance, forecasts were off by, base not calibrated (calibrated): {told} of the change: {PAGE}"
