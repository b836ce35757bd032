"""What all domains of TraCI's calls share. What streetsim has nothing for says what to do instead."""
from collections import defaultdict
from collections.abc import Callable, Collection, Container, Iterable, Sequence
from functools import cached_property

from streetsim.base.arrays import Array, numpy as np
from streetsim.base.shapes import Line
from streetsim.simulation.calls import CallGroup
from streetsim.simulation.columns import Column
from streetsim.simulation.errors import NotHere, TraCIException
from streetsim.simulation.session import TraciSession
from streetsim.traci import constants as tc
from streetsim.traci.advice import advice_on
from streetsim.traci.protocol import TraciValue
from streetsim.traci.table import OF_ALL, calls_by_variable

VariableValues = dict[int, TraciValue]  # what is told, by variable
# Letters of the parameters that scripts keep in a domain, at most; as how many a parameter counts beside its own.
MOST_LETTERS, OVERHEAD = 1 << 24, 100


class Domain(CallGroup):
    """A domain of calls on objects of one kind."""

    kind = "Object"
    default_variables: tuple[int, ...] = ()  # that are subscribed to where none is told

    def __init__(self, session: Callable[[], TraciSession]) -> None:
        """session: gives the session; FatalTraCIError where no run is under way."""
        super().__init__(session)
        self.subscribed: dict[str, tuple[int, ...]] = {}  # variables by object
        self.contexts: dict[str, tuple[float, tuple[int, ...]]] = {}  # by object: metres, and variables of the vehicles
        self.parameters: dict[tuple[str, str], str] = {}  # that scripts keep, by object and key
        self.letters = 0  # of their keys and texts, with OVERHEAD for each

    @cached_property
    def variables(self) -> dict[int, str]:
        """The calls that tell variables, by number."""
        return calls_by_variable(self.name)

    def advice(self, called: str) -> str:
        """What is said of a call of this domain that is not here; called: "domain.call"."""
        return advice_on(called)

    def check_known(self, name: str, names: Container[str]) -> None:
        """TraCIException where a name is not one of names."""
        if name not in names:
            raise TraCIException(f"{self.kind} '{name}' is not known.")

    def getIDCount(self) -> int:
        """How many objects getIDList names."""
        return len(self.getIDList())

    # Parameters that a script keeps with an object

    def setParameter(self, objectID: str, param: str, value: object) -> None:
        """Keeps a text under a key (param), for getParameter. TraCIException for an unknown object, and where the
        domain would keep more than MOST_LETTERS; NotHere for keys of SUMO's models."""
        self.check_key(objectID, param)
        text, previous = str(value), self.parameters.get((objectID, param))
        added_letters = len(text) - len(previous) if previous is not None else len(param) + len(text) + OVERHEAD
        if self.letters + added_letters > MOST_LETTERS:
            raise TraCIException(f"{self.name}: parameters of more than {MOST_LETTERS:,} letters are not kept")
        self.letters += added_letters
        self.parameters[objectID, param] = text

    def forget_parameters(self, name: str) -> None:
        """Forgets the parameters that a script keeps with an object."""
        for key in [key for key in self.parameters if key[0] == name]:
            self.letters -= len(key[1]) + len(self.parameters.pop(key)) + OVERHEAD

    def getParameter(self, objectID: str, param: str) -> str:
        """The text that was kept under a key (param), else empty; raises as setParameter does."""
        self.check_key(objectID, param)
        return self.parameters.get((objectID, param), "")

    def getParameterWithKey(self, objectID: str, key: str) -> tuple[str, str]:
        """(key, what getParameter gives for it)."""
        return key, self.getParameter(objectID, key)

    def check_key(self, name: str, key: str) -> None:
        """TraCIException for an unknown object; NotHere for a key of a model of SUMO's that is not here."""
        self.check_subject(name)
        if key.startswith(("device.", "has.", "laneChangeModel.", "carFollowModel.", "junctionModel.", "parking.")):
            raise NotHere(f"{self.name}: parameter {key!r} is of a model of SUMO's that is not here")

    # Subscriptions

    def subscribe(
        self, name: str, varIDs: Sequence[int] | None = None, begin: object = None, end: object = None
    ) -> None:
        """Has variables of an object, by number (None: SUMO's usual ones), and no others told from now on. begin and
        end have no effect. TraCIException for an unknown object, NotHere for a variable that cannot be told."""
        self.check_subject(name)
        self.note_subscription(name, varIDs)

    def note_subscription(self, name: str, numbers: Sequence[int] | None) -> None:
        """As subscribe, of an object whose name was checked."""
        variables = tuple(self.default_variables if numbers is None else numbers)
        self.check_variables(variables)
        self.subscribed[name] = variables

    def check_variables(self, variables: Sequence[int]) -> None:
        """NotHere where one of the variables, by number, cannot be subscribed to."""
        if unknown := [variable for variable in variables if variable not in self.variables]:
            raise NotHere(f"{self.name}: variable {unknown[0]:#x} cannot be subscribed to here")

    def unsubscribe(self, name: str) -> None:
        """Ends the subscription to an object; does nothing where there is none."""
        self.subscribed.pop(name, None)

    def subjects(self) -> Collection[str]:
        """The names of the objects that can be subscribed to."""
        return self.getIDList()

    def is_subject(self, name: str) -> bool:
        """Whether `subjects` has a name."""
        return name in self.subjects()

    def check_subject(self, name: str) -> None:
        """TraCIException where `subjects` does not have a name."""
        if not self.is_subject(name):
            raise TraCIException(f"{self.kind} '{name}' is not known.")

    def getSubscriptionResults(self, name: str) -> VariableValues:
        """What was subscribed to, as it is now, by number of the variable; empty where the object is gone."""
        if name not in self.subscribed or not self.is_subject(name):
            return {}
        return self.variable_values(name, self.subscribed[name])

    def variable_values(self, name: str, variables: Iterable[int]) -> VariableValues:
        """{number of a variable: what its call gives for an object}; check_variables must let them pass."""
        calls = {variable: getattr(self, self.variables[variable]) for variable in variables}
        return {variable: call() if variable in OF_ALL else call(name) for variable, call in calls.items()}

    def columns(self, variables: Sequence[int], names: Sequence[str]) -> list[Column]:
        """By variable what its call gives for each of some objects, all of them there."""
        return [self.column(variable, names) for variable in variables]

    def column(self, variable: int, names: Sequence[str]) -> Column:
        """What the call of a variable gives for each of some objects, all of them there."""
        call = getattr(self, self.variables[variable])
        return [call()] * len(names) if variable in OF_ALL else [call(name) for name in names]

    def all_values(self, names: Sequence[str], variables: Sequence[int]) -> dict[str, VariableValues]:
        """By object, of some that are all there, what variable_values gives."""
        columns = map(plain, self.columns(variables, names))
        return {name: dict(zip(variables, row)) for name, row in zip(names, zip(*columns))} if variables else {}

    def existing(self, names: Iterable[str]) -> list[str]:
        """Of some objects those that are there, whose subscriptions are told."""
        return [name for name in names if self.is_subject(name)]

    def getAllSubscriptionResults(self) -> dict[str, VariableValues]:
        """By object, of those that are there, what getSubscriptionResults gives."""
        groups: defaultdict[tuple[int, ...], list[str]] = defaultdict(list)
        for name, variables in self.subscribed.items():
            groups[variables].append(name)
        results: dict[str, VariableValues] = {}
        for variables, names in groups.items():
            results |= self.all_values(self.existing(names), variables)
        return results

    def forget(self) -> None:
        """Forgets subscriptions and what scripts keep, at the end of a run."""
        self.subscribed.clear()
        self.contexts.clear()
        self.parameters.clear()
        self.letters = 0


class Outlined(Domain):
    """Objects with an outline, around which vehicles can be looked for."""

    vehicles: Domain  # that are looked for; the package sets it
    is_fixed = True  # where it is

    def outline(self, name: str) -> Line:
        """Points (x, y), one or a line, in metres, from which distances are measured; each class has its own."""
        raise NotImplementedError

    def subscribeContext(
        self, objectID: str, domain: int, dist: float, varIDs: Sequence[int] | None = None, begin: object = None,
        end: object = None,
    ) -> None:  # fmt: skip
        """Has variables of all vehicles at most dist metres from the object told from now on, and no others. domain:
        that of vehicles (CMD_GET_VEHICLE_VARIABLE); varIDs: numbers, None: edge and metres on the lane; begin and end
        have no effect. TraCIException for an unknown object; NotHere for another domain or variable."""
        variables = tuple((tc.VAR_ROAD_ID, tc.VAR_LANEPOSITION) if varIDs is None else varIDs)
        self.check_context(objectID, domain, variables)
        self.contexts[objectID] = float(dist), variables

    def check_context(self, name: str, domain: int, variables: Sequence[int]) -> None:
        """Raises what subscribeContext does."""
        self.check_subject(name)
        if domain != tc.CMD_GET_VEHICLE_VARIABLE:
            raise NotHere(f"{self.name}.subscribeContext: of domain {domain:#x} nothing is looked for, but of vehicles")
        self.vehicles.check_variables(variables)

    def unsubscribeContext(self, objectID: str, domain: int, dist: float) -> None:
        """Ends the context subscription to an object; domain and dist have no effect."""
        self.contexts.pop(objectID, None)

    def getContextSubscriptionResults(self, objectID: str) -> dict[str, VariableValues]:
        """By vehicle near the object what was subscribed to, by number; empty where the object is gone."""
        if objectID not in self.contexts or not self.is_subject(objectID):
            return {}
        metres, variables = self.contexts[objectID]
        return self.vehicles.all_values(self.names_near(objectID, metres), variables)

    def names_near(self, name: str, metres: float) -> tuple[str, ...]:
        """The vehicles at most some metres from an object."""
        rows, _ = self.session().vehicle_points.rows_in(*self.stretches_near(name, metres))
        return self.session().names_of(self.session().view.number[rows].tolist())

    def stretches_near(self, name: str, metres: float) -> tuple[Array, Array]:
        """The stretches of places, as Places has them, at most some metres from an object."""
        line = tuple((point[0], point[1]) for point in self.outline(name))
        points = self.session().vehicle_points
        return points.stretches_of(line, metres) if self.is_fixed else points.stretches(line, metres)

    def getAllContextSubscriptionResults(self) -> dict[str, dict[str, VariableValues]]:
        """By object, of those that are there, what getContextSubscriptionResults gives."""
        return {name: self.getContextSubscriptionResults(name) for name in self.contexts if self.is_subject(name)}


def plain(column: Column) -> Sequence[object]:
    """A column as Python's own values: numbers, and points as tuples."""
    if isinstance(column, list):
        return column
    values = np.asarray(column).tolist()
    return list(map(tuple, values)) if values and isinstance(values[0], list) else values
