"""What types of vehicles look like: it is told as SUMO's files have it, and changes nothing here."""
from collections.abc import Mapping
from typing import NamedTuple

from streetsim.base.files import number
from streetsim.sumo.types import Kind
from streetsim.traci.domain import Domain

YELLOW = (255, 255, 0, 255)  # SUMO's colour of a vehicle
Colour = tuple[int, ...]  # red, green, blue, opacity; 0 to 255


class VehicleLook(NamedTuple):
    """How a vehicle of a class looks where its type tells nothing else, as SUMO has it."""

    width: float = 1.8  # metres
    height: float = 1.5
    emission: str = "HBEFA3/PC_G_EU4"
    shape: str = "passenger"
    persons: int = 4


VAN = VehicleLook(2.16, 2.86, "HBEFA3/LDV", "delivery", 2)
LOOKS = {
    "emergency": VAN, "delivery": VAN, "taxi": VehicleLook(shape="taxi"),
    "bus": VehicleLook(2.5, 3.4, "HBEFA3/Bus", "bus", 85),
    "coach": VehicleLook(2.6, 4.0, "HBEFA3/Coach", "bus/coach", 70),
    "truck": VehicleLook(2.4, 2.4, "HBEFA3/HDV", "truck", 2),
    "trailer": VehicleLook(2.55, 4.0, "HBEFA3/HDV", "truck/trailer", 2),
    "tram": VehicleLook(2.4, 3.2, "Zero/default", "rail/railcar", 120),
    "motorcycle": VehicleLook(0.9, 1.5, "HBEFA3/LDV_G_EU6", "motorcycle", 1),
    "moped": VehicleLook(0.78, 1.7, "HBEFA3/LDV_G_EU6", "moped", 1),
    "bicycle": VehicleLook(0.65, 1.7, "Zero/default", "bicycle", 1),
    "evehicle": VehicleLook(emission="Zero/default", shape="evehicle"),
}  # by class, of those that differ


class LookDomain(Domain):
    """Calls on the looks of types, or of the types of vehicles: metres, SUMO's names. TraCIException for an unknown
    name."""

    def type_of(self, name: str) -> tuple[Kind, Mapping[str, str]]:
        """(the type of an object, the attributes that its file has); each class below gives its own."""
        raise NotImplementedError

    def attribute_and_look(self, name: str, attribute: str) -> tuple[str | None, VehicleLook]:
        """(what the file of a type has as an attribute, how its class looks)."""
        kind, attributes = self.type_of(name)
        return attributes.get(attribute), LOOKS.get(kind.vclass, VehicleLook())

    def getWidth(self, name: str) -> float:
        """Metres; vehicles fill their lane here."""
        value, usual_look = self.attribute_and_look(name, "width")
        return usual_look.width if value is None else number(value)

    def getHeight(self, name: str) -> float:
        """Metres."""
        value, usual_look = self.attribute_and_look(name, "height")
        return usual_look.height if value is None else number(value)

    def getEmissionClass(self, name: str) -> str:
        """The class of its emissions, which are not reckoned here."""
        value, usual_look = self.attribute_and_look(name, "emissionClass")
        return value or usual_look.emission

    def getShapeClass(self, name: str) -> str:
        """The name of the shape in which SUMO's window draws it."""
        value, usual_look = self.attribute_and_look(name, "guiShape")
        return value or usual_look.shape

    def getPersonCapacity(self, name: str) -> int:
        """How many persons may ride; nobody does."""
        value, usual_look = self.attribute_and_look(name, "personCapacity")
        return usual_look.persons if value is None else int(value)

    def getActionStepLength(self, name: str) -> float:
        """1.0: the seconds after which a driver acts."""
        self.type_of(name)
        return 1.0

    def getLateralAlignment(self, name: str) -> str:
        """"center": vehicles fill their lane."""
        self.type_of(name)
        return "center"

    def colour_of_type(self, name: str) -> Colour:
        """The colour of a type, where its file has it in numbers; else SUMO's yellow."""
        colour_text = self.type_of(name)[1].get("color", "")
        try:
            parts = [number(part) for part in colour_text.split(",")]
        except ValueError:
            return YELLOW
        scale = 255 if all(part <= 1 for part in parts) else 1
        colour = tuple(round(part * scale) for part in parts)
        return colour if len(colour) == 4 else (*colour, 255) if len(colour) == 3 else YELLOW
