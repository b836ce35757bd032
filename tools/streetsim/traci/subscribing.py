"""Subscriptions of a client of TraCI's protocol: what it is sent of objects and vehicles near them after each step."""
from __future__ import annotations

from collections import defaultdict
from collections.abc import Collection, Iterable, Iterator, Mapping, Sequence
from dataclasses import dataclass, field
from math import inf
from typing import NamedTuple

import streetsim.traci as traci
from streetsim.base.arrays import Array, numpy as np
from streetsim.simulation.errors import NotHere
from streetsim.traci import constants as tc
from streetsim.traci.advice import advice_on
from streetsim.traci.answering import subscribed_value
from streetsim.traci.domain import Domain, Outlined
from streetsim.traci.packing_rows import pack_rows
from streetsim.traci.protocol import (
    DOUBLE, INT, LONG_HEAD, BadMessage, TraciValue, ValueReader, known_text, subscription_answer, text,
)  # fmt: skip
from streetsim.traci.table import DOMAINS, GETS, NOT_SUBSCRIBED, Get

SUBSCRIBE_OF = {numbers.subscribe: name for name, numbers in DOMAINS.items()}
CONTEXT_OF = {numbers.context: name for name, numbers in DOMAINS.items()}
ANSWER_OFFSET = 16  # by which the code of an answer is above that of its command
SIMULATION = "simulation"
MOST_JOINED = 64  # groups of contexts whose stretches are kept


class TimeSpan(NamedTuple):
    """From which clock to which one something is told."""

    begin: float
    end: float


class Subscription(NamedTuple):
    """What is told of objects of a domain: variables by number, those that have words with these, and when."""

    code: int  # of the command
    variables: tuple[int, ...]
    arguments: tuple[tuple[TraciValue, ...], ...]
    time: TimeSpan


class VehicleContext(NamedTuple):
    """What is told of the vehicles at most some metres from an object, and when."""

    metres: float
    variables: tuple[int, ...]
    time: TimeSpan


@dataclass
class Subscriptions:
    """The subscriptions of a client, by code of their command and object."""

    subscribed: dict[tuple[int, str], Subscription] = field(default_factory=dict)
    # By object its name and how many variables are told, as bytes.
    groups: dict[Subscription, dict[str, bytes]] = field(default_factory=dict)
    contexts: dict[tuple[int, str], VehicleContext] = field(default_factory=dict)

    def subscribe(self, code: int, reader: ValueReader) -> bytes:
        """Notes a subscription, or ends it where it names no variable; gives what it tells now. BadMessage for wrong
        values, TraCIException for an unknown object, NotHere for a variable that cannot be told."""
        time, name, domain = read_time_span(reader), reader.text(), SUBSCRIBE_OF[code]
        numbers = read_variables(reader)
        variables = [(number, tuple(reader.typed_values(get_of(domain, number).takes))) for number in numbers]
        if not variables:
            self.end(code, name)
            return b""
        if domain != SIMULATION:
            domain_of(domain).check_subject(name)
        arguments = tuple(values for _, values in variables)
        subscription = Subscription(code, tuple(number for number, _ in variables), arguments, time)
        answer = object_answer(name, subscription)
        self.end(code, name)
        self.subscribed[code, name] = subscription
        self.groups.setdefault(subscription, {})[name] = text(name) + bytes((len(variables),))
        return answer

    def end(self, code: int, name: str) -> None:
        """Ends a subscription, where there is one."""
        if (subscription := self.subscribed.pop((code, name), None)) is not None:
            del self.groups[subscription][name]
            if not self.groups[subscription]:
                del self.groups[subscription]

    def subscribe_context(self, code: int, reader: ValueReader) -> bytes:
        """As `subscribe`, of the vehicles around an object."""
        time, name, domain = read_time_span(reader), reader.text(), CONTEXT_OF[code]
        kind, (metres,) = reader.byte(), reader.unpack(DOUBLE)
        variables = tuple(read_variables(reader))
        if not variables:
            self.contexts.pop((code, name), None)
            return b""
        context_domain = domain_of(domain)
        if not isinstance(context_domain, Outlined):
            raise NotHere(f"{domain}.subscribeContext is not here: {advice_on(f'{domain}.subscribeContext')}")
        context_domain.check_context(name, kind, variables)
        if not 0 <= metres < inf:
            raise BadMessage(f"{metres} m are no distance")
        context = VehicleContext(metres, variables, time)
        answer = self.context_answers({(code, name): context})[0]
        self.contexts[code, name] = context
        return answer

    def answers_after_step(self) -> bytes:
        """What is told after a step: how many answers, and these. Those of objects that have ended are forgotten."""
        clock, answers = traci.simulation.getTime(), list[bytes]()
        for subscription, names in list(self.groups.items()):
            if subscription.time.end < clock:
                for name in list(names):
                    self.end(subscription.code, name)
            elif subscription.time.begin <= clock:
                existing = existing_names(subscription, names)
                if len(existing) < len(names):
                    self.forget_ended(subscription, names, existing)
                answers += group_answers(existing, names, subscription)
        if self.contexts:
            due = {key: near for key, near in self.contexts.items() if near.time.begin <= clock <= near.time.end}
            due = {key: near for key, near in due.items() if exists(CONTEXT_OF[key[0]], key[1])}
            answers += self.context_answers(due)
        return INT.pack(len(answers)) + b"".join(answers)

    def forget_ended(self, subscription: Subscription, names: Collection[str], existing: Iterable[str]) -> None:
        """Forgets the subscriptions, of some alike, to objects that are not there and never will be."""
        subject_domain = domain_of(SUBSCRIBE_OF[subscription.code])
        for name in set(names).difference(existing):
            if not subject_domain.is_subject(name):
                self.end(subscription.code, name)

    def context_answers(self, contexts: Mapping[tuple[int, str], VehicleContext]) -> list[bytes]:
        """The answers of contexts; each vehicle is packed once."""
        groups: defaultdict[tuple[int, ...], list[tuple[int, str, float]]] = defaultdict(list)
        for (code, name), context in contexts.items():
            groups[context.variables].append((code, name, context.metres))
        return [answer for variables, group in groups.items() for answer in nearby_answers(variables, group)]


def nearby_answers(variables: tuple[int, ...], contexts: Sequence[tuple[int, str, float]]) -> Iterator[bytes]:
    """The answers of contexts, (code, object, metres), with equal variables."""
    session = traci.simulation.session()
    begins, ends_of, counts = stretches_of(contexts)
    rows, through = session.vehicle_points.rows_in(begins, ends_of)
    distinct_rows, row_places = np.unique(rows, return_inverse=True)
    names = session.names_of(session.view.number[distinct_rows].tolist())
    values = rows_of("vehicle", variables, names)
    packed = [known_text(name) + value for name, value in zip(names, values, strict=True)]
    vehicle_parts = [packed[row] for row in row_places.tolist()]
    ends = np.append(0, through)[counts].tolist()
    kind = bytes((DOMAINS["vehicle"].get, len(variables)))
    for (code, name, _), begin, end in zip(contexts, [0, *ends], ends):
        head = known_text(name) + kind + INT.pack(end - begin)
        yield subscription_answer(code + ANSWER_OFFSET, head + b"".join(vehicle_parts[begin:end]))


def stretches_of(contexts: Sequence[tuple[int, str, float]]) -> tuple[Array, Array, Array]:
    """The stretches of places, as Places has them, of contexts behind each other: (begins, ends, by context how many
    there are of it and of those before it). They are kept where all objects stand."""
    domains = {code: domain_of(CONTEXT_OF[code]) for code in {code for code, *_ in contexts}}
    outlined = {code: domain for code, domain in domains.items() if isinstance(domain, Outlined)}
    key, joined = tuple(contexts), traci.simulation.session().vehicle_points.joined
    if (stretches := joined.get(key)) is None:
        by_context = [outlined[code].stretches_near(name, metres) for code, name, metres in contexts]
        begins, ends = (np.concatenate(parts) for parts in zip(*by_context))
        stretches = begins, ends, np.cumsum([len(context_begins) for context_begins, _ in by_context])
        if all(domain.is_fixed for domain in outlined.values()):
            if len(joined) >= MOST_JOINED:
                joined.clear()
            joined[key] = stretches
    return stretches


def read_time_span(reader: ValueReader) -> TimeSpan:
    """From when to when something is to be told; SUMO's value for "none" is always."""
    begin, end = reader.unpack(DOUBLE)[0], reader.unpack(DOUBLE)[0]
    return TimeSpan(begin, inf if end == tc.INVALID_DOUBLE_VALUE else end)


def read_variables(reader: ValueReader) -> Iterable[int]:
    """The numbers of variables, so many as the next byte says; what stands between two of them is read by the user."""
    return (reader.byte() for _ in range(reader.byte()))


def get_of(domain: str, variable: int) -> Get:
    """What tells a variable that is subscribed to; NotHere where nothing does."""
    get = GETS.get(domain, {}).get(variable)
    if get is None or get.call in NOT_SUBSCRIBED or get.takes not in ("", "d", "s", "i"):
        raise NotHere(f"{domain}: variable {variable:#x} cannot be subscribed to here")
    return get


def domain_of(name: str) -> Domain:
    """A domain of calls by its name; NotHere where it is not here."""
    domain: Domain = getattr(traci, name)
    return domain


def exists(domain: str, name: str) -> bool:
    """Whether an object is there, of which something is told."""
    return bool(domain_of(domain).existing([name]))


def existing_names(subscription: Subscription, names: Collection[str]) -> Collection[str]:
    """Of some objects those that are there; the one simulation always is."""
    domain = SUBSCRIBE_OF[subscription.code]
    return names if domain == SIMULATION else domain_of(domain).existing(names)


def object_answer(name: str, subscription: Subscription) -> bytes:
    """What a subscription to one object tells now, call by call."""
    domain, body = SUBSCRIBE_OF[subscription.code], b""
    for variable, arguments in zip(subscription.variables, subscription.arguments, strict=True):
        body += bytes((variable, tc.RTYPE_OK)) + subscribed_value(domain, GETS[domain][variable], name, arguments)
    head = text(name) + bytes((len(subscription.variables),))
    return subscription_answer(subscription.code + ANSWER_OFFSET, head + body)


def group_answers(existing: Collection[str], names: Mapping[str, bytes], subscription: Subscription) -> list[bytes]:
    """What equal subscriptions tell of some objects that are there; names: as `groups` has
    them."""
    domain = SUBSCRIBE_OF[subscription.code]
    if domain == SIMULATION or any(subscription.arguments):
        return [object_answer(name, subscription) for name in existing]
    code, pack_head = subscription.code + ANSWER_OFFSET, LONG_HEAD.pack
    rows = rows_of(domain, subscription.variables, list(existing))
    begins = [names[name] for name in existing]
    pairs = zip(begins, rows, strict=True)
    return [pack_head(0, len(begin) + len(row) + 6, code) + begin + row for begin, row in pairs]


def rows_of(domain: str, variables: Sequence[int], names: Sequence[str]) -> list[bytes]:
    """By object, of some that are all there, the bytes of its variables."""
    columns_domain = domain_of(domain)
    kinds = [(variable, GETS[domain][variable].gives) for variable in variables]
    return pack_rows(kinds, columns_domain.columns(variables, names), len(names))
