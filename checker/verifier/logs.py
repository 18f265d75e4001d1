"""The layered log of a run, and the reports on it."""

from __future__ import annotations

from .runs import Record


def layers_of(records: list[Record]) -> list[int]:
    """The layer of each record of a log: 1 more than the greatest one among earlier records that share a variable with
    it.
    """
    last: dict[int, int] = {}
    found = []
    for record in records:
        variables = [variable for variable, _ in record.event.cube]
        layer = 1 + max(last.get(variable, 0) for variable in variables)
        last.update(dict.fromkeys(variables, layer))
        found.append(layer)
    return found


def layered(records: list[Record]) -> list[tuple[int, Record]]:
    """The records of a log, each with its layer, by rising layer, and in a layer by rising unit."""
    found = list(zip(layers_of(records), records))
    return sorted(found, key=lambda each: (each[0], each[1].event.unit))


def printed_pop(record: Record, names: list[int]) -> str:
    """What the line of a record has behind its layer."""
    pairs = zip(record.event.cube, record.entries)
    used = [f"{names[variable]}:{entry}" for (variable, _), entry in pairs]
    return " ".join([str(record.event.number), *used])


def log_lines(log: list[tuple[int, Record]], names: list[int]) -> list[str]:
    """The printed log."""
    records = [f"pop {layer} {printed_pop(record, names)}" for layer, record in log]
    return [f"log 2 {len(log)}", *records]


def report_lines(kinds: list[str], log: list[tuple[int, Record]]) -> list[str]:
    """The reports that were asked for, as folds of the log."""
    lengths = [len(record.entries) for _, record in log]
    digits = [entry.bit_length() for _, record in log for entry in record.entries]
    counts = [digits.count(each) for each in range(max(digits, default=-1) + 1)]
    popped = {variable for _, record in log for variable, _ in record.event.cube}
    reports = {
        "totals": ["report totals", len(log), sum(lengths), max(lengths, default=0)],
        "heights": ["report heights", *counts],
        "layers": ["report layers", max((layer for layer, _ in log), default=0), len(popped)],
    }
    return [" ".join(map(str, reports[kind])) for kind in reports if kind in kinds]
