"""How offices write directions, turns and columns in English, German, French and Spanish, and what a whole set of such
words means. What can be read in two ways is said to be so, and not guessed."""
import re
import unicodedata
from collections.abc import Iterable, Mapping, Sequence

TURN_LEFT, TURN_THROUGH, TURN_RIGHT, TURN_BACK = "L", "T", "R", "U"
TURN_WORDS = {
    TURN_LEFT: "left lt leftturn links linksabbieger linkseinbieger gauche tourneagauche agauche izquierda izq izda",
    TURN_THROUGH: "through thru straight straighton ahead geradeaus gerade geradeausfahrer toutdroit droit direct "
    "recto frente defrente directo siguerecto",
    TURN_RIGHT: "right rt rightturn rechts rechtsabbieger rechtseinbieger droite tourneadroite adroite derecha der "
    "dcha",
    TURN_BACK: "u uturn turnaround wenden wender kehrt demitour cambiodesentido retorno",
}
# What single letters mean to each language; the letters of a table are read by all that know every one of them.
TURN_LETTERS = (
    {"l": TURN_LEFT, "t": TURN_THROUGH, "r": TURN_RIGHT},
    {"l": TURN_LEFT, "s": TURN_THROUGH, "r": TURN_RIGHT},
    {"l": TURN_LEFT, "g": TURN_THROUGH, "r": TURN_RIGHT},
    {"g": TURN_LEFT, "t": TURN_THROUGH, "d": TURN_RIGHT},
    {"i": TURN_LEFT, "r": TURN_THROUGH, "d": TURN_RIGHT},
    {"i": TURN_LEFT, "f": TURN_THROUGH, "d": TURN_RIGHT},
)
COMPASS = {
    "N": "north nord norte northern", "NE": "northeast nordost nordest noreste", "E": "east ost est este eastern",
    "SE": "southeast suedost südost sudest sureste", "S": "south sued süd sud sur southern",
    "SW": "southwest suedwest südwest sudouest suroeste", "W": "west ouest oeste western",
    "NW": "northwest nordwest nordouest noroeste",
}  # fmt: skip
COMPASS_LETTERS = (
    {name.lower(): name for name in COMPASS},
    {"n": "N", "no": "NE", "o": "E", "so": "SE", "s": "S", "sw": "SW", "w": "W", "nw": "NW"},
    {"n": "N", "ne": "NE", "e": "E", "se": "SE", "s": "S", "so": "SW", "o": "W", "no": "NW"},
)
BOUND = re.compile(r"(north|south|east|west|n|s|e|w)b(?:ound)?")  # the way that vehicles go, as in the United States
FROM_BOUND = {"n": "S", "s": "N", "e": "W", "w": "E"}  # where they come from
COLUMNS = {
    "begin": "time begin start from beginning interval period hour zeit uhrzeit beginn von anfang stunde intervall "
    "heure debut periode tranche hora inicio desde tiempo periodo intervalo",
    "end": "end until till to ende bis fin jusqua hasta",
    "junction": "junction intersection node site knoten knotenpunkt kreuzung carrefour noeud interseccion cruce nudo",
    "arm": "arm approach leg direction zufahrt knotenarm arm ast branche entree approche acceso brazo ramal rama",
    "turn": "turn movement turning strom fahrbeziehung abbiegestrom mouvement giro movimiento",
    "vehicles": "vehicles count volume veh number total kfz fahrzeuge anzahl menge vehicules nombre debit vehiculos "
    "cantidad conteo",
    "sum": "sum summe gesamt somme ensemble suma",
    "heavy": "heavy trucks hgv lkw sv schwerverkehr pl poidslourds lourds pesados camiones",
    "cycles": "cycles bicycles bikes cyclists rad radfahrer fahrrad velos cyclistes bicicletas ciclistas",
    "pedestrians": "pedestrians peds walkers fussgaenger fußgänger fußgaenger pietons peatones",
}


class Ambiguous(ValueError):
    """What can be read in two ways; the text asks."""


def folded(text: str) -> str:
    """A word without capital letters, accents, blanks and marks: tout droit as toutdroit, Début as debut."""
    plain = unicodedata.normalize("NFKD", text.strip().lower().replace("ß", "ss"))
    return "".join(letter for letter in plain if letter.isalnum() and not unicodedata.combining(letter))


def word_table(words: Mapping[str, str]) -> dict[str, str]:
    """{word as `folded` gives it: what it means}."""
    return {folded(word): meaning for meaning, texts in words.items() for word in texts.split()}


TURN_OF_WORD, COMPASS_OF_WORD, COLUMN_OF_WORD = word_table(TURN_WORDS), word_table(COMPASS), word_table(COLUMNS)


def column_meant(text: str) -> str | None:
    """What a column is, by its head: begin, arm, .. of COLUMNS; None where the head is none of these."""
    whole = folded(re.sub(r"[(\[].*?[)\]]", "", text))
    return COLUMN_OF_WORD.get(whole)


def meant_together(words: Iterable[str], of_word: Mapping[str, str], letters: Sequence[Mapping[str, str]]) -> list[str]:
    """What some words mean together: whole words by themselves, letters by each language that knows all of these.
    KeyError with the first word that nothing is known of; Ambiguous where two languages differ."""
    texts = [folded(word) for word in words]
    short = {text for text in texts if text not in of_word}
    by_words = {of_word[text] for text in texts if text in of_word}
    readings = [meanings for meanings in letters if short <= meanings.keys()]
    if not readings:
        known_letters = {letter for meanings in letters for letter in meanings}
        raise KeyError(next((text for text in sorted(short) if text not in known_letters), sorted(short)[0]))
    # A letter beside a whole word of the same meaning is another thing than that word.
    fitting = [meanings for meanings in readings if not by_words & {meanings[text] for text in short}] or readings
    for text in sorted(short):
        if len(told := sorted({meanings[text] for meanings in fitting})) > 1:
            raise Ambiguous(f"{text.upper()!r} may be {' or '.join(told)}")
    return [of_word[text] if text in of_word else fitting[0][text] for text in texts]


def turns_meant(words: Iterable[str]) -> list[str]:
    """L, T, R or U of each word of a table for a turn; KeyError and Ambiguous as of meant_together."""
    letters = [meanings | {"u": TURN_BACK, "w": TURN_BACK} for meanings in TURN_LETTERS]
    return meant_together(words, TURN_OF_WORD, letters)


def compass_meant(words: Iterable[str]) -> list[str]:
    """N, NE, .. of each word of a table for the arm from which vehicles come; who goes northbound comes from the south.
    KeyError and Ambiguous as of meant_together."""
    texts = list(words)
    if bound := [BOUND.fullmatch(folded(word)) for word in texts]:
        if all(bound):
            return [FROM_BOUND[one[1][0]] for one in bound if one]
    return meant_together(texts, COMPASS_OF_WORD, COMPASS_LETTERS)
