"""The cases, in the order in which they run."""
from cases import clients, crowds, drains, flights, idle, metrics, mutants, requests, servers, spools, starts, stops, waits

MODULES = [starts, requests, clients, servers, flights, idle, spools, crowds, drains, metrics, mutants, stops, waits]


def named(names):
    """The cases of these names; all where none is given."""
    every = [value for module in MODULES for value in vars(module).values() if hasattr(value, "seconds")]
    unknown = set(names) - {case.__name__ for case in every}
    if unknown:
        raise SystemExit("no such case: " + " ".join(sorted(unknown)))
    return [case for case in every if not names or case.__name__ in names]
