"""Changes and intervals in words."""
from streetsim.model.doubts import OF_WORKS, Doubt
from streetsim.report.plan_differences import PlanDifference

NEARLY, TWICE = 0.75, 2.0  # of what can pass; of more than that the share is one of a queue, and not told
NUMBERS = ("no", "one", "two", "three", "four", "five", "six", "seven", "eight", "nine", "ten", "eleven", "twelve")


def count_in_words(count: int) -> str:
    """A count in words up to twelve, 0 as 'no'; else in digits."""
    return NUMBERS[count] if count < len(NUMBERS) else f"{count:,}"


def counted_noun(count: int, noun: str) -> str:
    """A count with its noun: 'one run', 'five runs'."""
    return f"{count_in_words(count)} {noun}{'' if count == 1 else 's'}"


def less_or_more(change: float) -> str:
    """A change in seconds with its size and direction, one decimal: '17.9 s less'; 0 is 'more'."""
    return f"{abs(change):.1f} s {'less' if change < 0 else 'more'}"


def how_sure(drawn: bool) -> str:
    """What a change is whose interval of the mean leaves no doubt of its sign: sure, where departures were drawn; where
    they were listed, nothing is of another day."""
    return "for sure" if drawn else "beyond the chance of dawdling"


def interval_name(drawn: bool, of: str = "mean") -> str:
    """Of what the 95 % interval of several seeds is that decides; drawn: whether departures were; of: what the values
    are."""
    return f"95 % interval of the {of}{'' if drawn else ' by dawdling alone'}"


def span_in_words(change: float, half: float) -> str:
    """The 95 % interval of a change in seconds: '17.7 to 18.1 s less', or 'from 0.3 s less to 0.5 s more' where 0 is in
    it; half: half its width."""
    low, high = change - half, change + half
    if high < 0:
        return f"{-high:.1f} to {-low:.1f} s less"
    if low > 0:
        return f"{low:.1f} to {high:.1f} s more"
    return f"from {abs(low):.1f} s less to {high:.1f} s more"


def intervals_in_words(difference: PlanDifference) -> str:
    """Both 95 % intervals of a change in seconds, by their names; empty for one seed."""
    if difference.half is None:
        return ""
    told = f"{interval_name(difference.day is not None, 'mean change')}: "
    told += span_in_words(difference.change, difference.half)
    of_day = "" if difference.day is None else f"; of one day: {span_in_words(difference.change, difference.day)}"
    return told + of_day


def change_in_words(difference: PlanDifference) -> str:
    """How great a change in seconds is and how sure, or that it is not shown to differ."""
    if difference.half is None:
        return f"{less_or_more(difference.change)} (of one run)"
    change = less_or_more(difference.change) if difference.stands_out() else "not shown to differ"
    return f"{change} ({intervals_in_words(difference)})"


def times_as_many(share: float) -> str:
    """How many wish to pass, as a share of those who can, more than 1."""
    return "more than twice as many" if share > TWICE else f"up to {share:.2f} times as many"


def in_worst(runs: int) -> str:
    """That a number is of the worst of several runs, behind a comma; empty of one."""
    return f", in the worst of {counted_noun(runs, 'run')}" if runs > 1 else ""


def why(doubt: Doubt) -> str:
    """Why a place is doubted, in a councillor's words."""
    if not doubt.size:
        return doubt.why
    if doubt.size > 1:
        share = f"{times_as_many(doubt.size)} wish to pass as can"
    elif doubt.size < NEARLY:
        share = f"a vehicle that turns here waits for gaps ({100 * doubt.size:.0f} % of what can pass)"
    else:
        share = f"nearly as many wish to pass as can ({100 * doubt.size:.0f} %)"
    if doubt.kind != OF_WORKS:
        return share
    return f"how long one waits, as {share.replace('wish to pass as can', 'come as the open lane passes')}"


def size_told(size: float) -> str:
    """How many wish to pass as a share of those who can, with two decimals; empty where it is not known."""
    return f" over {TWICE:.0f}" if size > TWICE else f" {size:.2f}" if size else ""
