"""The sentences of a page: what it is, and what its changes gained."""
from streetsim.base.program import Proof, proof_of, proof_words
from streetsim.base.report import first_few
from streetsim.live.world import PageRun, World

LEAST_DIFFERENCE_S = 0.05  # seconds a trip that are told as a difference


def claim_of(page_run: PageRun) -> str:
    """What a page of a run is, and what is known of the proofs of its program."""
    proof = proof_of(page_run.program)
    programs = {
        Proof.PROVED: "The proved program",
        Proof.UNPROVED: "NOT PROVED: a program without proofs (./build --unproved)",
        Proof.UNKNOWN: f"A program that is {proof_words(page_run.program)}",
    }
    sentences = [programs[proof]]
    sentences[:0] = [f"{page_run.mapping.invented}."] if page_run.mapping.invented else []
    sentences[-1] += " on this machine answers; the bridge and this page's script are tested, not proved."
    if page_run.givers:
        sentences.append(
            "Without a light vehicles give way as in the run, in the gaps between vehicles that go first; these were "
            "found without the changes that are made here."
        )
    elif page_run.mapping.yields:
        sentences.append(
            "Without a light nobody gives way on this page: begin it with --rounds 2, and vehicles do as in the run."
        )
    lights = page_run.settings.lights
    if lights.driven:
        count = len(lights.driven)
        driven = "one light" if count == 1 else f"{count} lights"
        sentences.append(f"Detectors drive {driven}, until a plan is set there.")
    if listed := lights.listed_lights(page_run.mapping):
        shows, pronoun = ("One light shows", "it") if len(listed) == 1 else (f"{len(listed)} lights show", "them")
        how = f"listed seconds on this page, where SUMO's detectors would time {pronoun}"
        sentences.append(f"{shows} {how}: {first_few(listed)}.")
    return " ".join(sentences)


def gain_of(unchanged: World, current: World) -> tuple[float, int]:
    """What changes gained so far: (seconds a trip that are lost less, how many have arrived more)."""
    wished = current.ledger.wished(current.clock)
    seconds = (unchanged.ledger.lost - current.ledger.lost) / wished if wished else 0.0
    return seconds, current.ledger.end_count - unchanged.ledger.end_count


def gain_text(seconds: float, ended: int) -> str:
    """What gain_of gives, in words."""
    delay_word, arrival_word = "less" if seconds > 0 else "more", "more" if ended > 0 else "fewer"
    delay = f"{abs(seconds):.1f} s a trip {delay_word} so far"
    trips = delay if abs(seconds) >= LEAST_DIFFERENCE_S else "no difference in delay so far"
    return f"{trips}; {f'{abs(ended):,} {arrival_word}' if ended else 'as many'} have arrived"
