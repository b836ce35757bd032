"""The types and routes of vehicles, as SUMO's files and scripts name them."""
from streetsim.base import limits
from streetsim.model.mapping import Map
from streetsim.sumo.types import DEFAULT, Kind


class TypesByVehicle:
    """The type and the route of each vehicle, and what each type is."""

    def __init__(self, mapping: Map) -> None:
        """mapping: has the types and routes of the file's vehicles."""
        self.of_file, self.sizes = mapping.kinds, mapping.options.get("sizes", True)
        self.indexes = {name: index for index, name in enumerate(mapping.cars)}  # of the vehicles of the run file
        self.kinds = {name: Kind(*fields) for name, *fields in self.of_file.get("types", ())} or {DEFAULT: Kind()}
        self.kind_of: dict[str, str] = {}  # by name, of the vehicles that a script adds
        self.route_of: dict[str, str] = {}  # by name, of those and of the ones that it sends another way

    def type_name(self, vehicle: str) -> str:
        """The name of a vehicle's type; DEFAULT_VEHTYPE where nobody tells one."""
        if vehicle in self.kind_of or vehicle not in self.indexes:
            return self.kind_of.get(vehicle, DEFAULT)
        type_indexes, index = self.of_file.get("type", ()), self.indexes[vehicle]
        return self.of_file["types"][type_indexes[index]][0] if index < len(type_indexes) else DEFAULT

    def kind(self, vehicle: str) -> Kind:
        """A vehicle's type; SUMO's usual one where no file has it."""
        return self.kinds.get(self.type_name(vehicle), Kind())

    def cells_of_type(self, name: str) -> int:
        """The cells, 1 to 4, of a type, by its name; 1 where the import left sizes out. KeyError for an unknown one."""
        metres = self.kinds[name].length + self.kinds[name].gap
        return max(1, min(limits.SIZE, int(metres / limits.CELL_METRES + 0.5))) if self.sizes else 1

    def route_name(self, vehicle: str) -> str:
        """The name of a vehicle's route; "!" and the vehicle's name where it has none, or was changed."""
        if vehicle in self.route_of or vehicle not in self.indexes:
            return self.route_of.get(vehicle, f"!{vehicle}")
        names, index = self.of_file.get("route") or (), self.indexes[vehicle]
        return (names[index] if index < len(names) else "") or f"!{vehicle}"
