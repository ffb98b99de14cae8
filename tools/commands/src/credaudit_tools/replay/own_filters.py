"""The filters that processes install, as a replay's events tell (docs/RULES.md, "Installing filters"): by pid the calls
that a process's own filter excludes. A child has its parent's."""
from collections.abc import Iterable, Mapping

from ..formats.report import BIRTHS, Event

NOTHING = frozenset[str]()
Filters = Mapping[int, frozenset[str]]


def installs(event: Event) -> bool:
    """Whether an event installs a filter."""
    return event.call == "install" and event.result == "0"


def installed(event: Event) -> frozenset[str]:
    """The calls that an event excludes for its caller from then on."""
    return frozenset(event.arguments) if installs(event) else NOTHING


def at_end(events: Iterable[Event]) -> Filters:
    """The filters after these events."""
    filters = dict[int, frozenset[str]]()
    for event in events:
        own = filters.get(event.pid, NOTHING) | installed(event)
        if event.call == "exit":
            filters.pop(event.pid, None)
        elif own:
            filters[event.pid] = own
        if event.call in BIRTHS and event.result.isdigit():
            filters[int(event.result)] = own
    return filters


def shared(filters: Iterable[frozenset[str]]) -> frozenset[str]:
    """What all of these exclude, of which there is one at least."""
    return frozenset.intersection(*filters)
