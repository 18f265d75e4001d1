"""Where a run ends, and what is told of it."""

from __future__ import annotations

from typing import NamedTuple, Union

from .command_line import Job
from .formulas import FormulaSetting, read_formula
from .graphs import grid, read_graph
from .logs import layered, log_lines, report_lines
from .orientations import OrientationSetting
from .refusals import Refusal
from .runs import Board, Record
from .stacks import Stacks
from .text import check_limit
from .trees import TreeSetting
from .witnesses import witness_lines

Setting = Union[FormulaSetting, OrientationSetting, TreeSetting]
MOST_VALUES = 33554432


class Answer(NamedTuple):
    """A status and the printed lines; and where these have samples that can be read off them, the setting, and before
    which line each end begins.
    """

    status: int
    lines: list[str]
    setting: Union[Setting, None] = None
    ends: tuple[int, ...] = (0,)


def setting_of(job: Job, text: bytes) -> Setting:
    """The names, weights and events of a job's run."""
    if job.command == "make":
        return TreeSetting(grid(job.side), 1)
    if job.command == "tree":
        return TreeSetting(read_graph(text), job.root)
    if job.command == "orient":
        return OrientationSetting(read_graph(text))
    return FormulaSetting(read_formula(text))


def refuse_clash(setting: FormulaSetting) -> None:
    """Refuses a formula that isn't extremal."""
    clash = setting.family.least_clash()
    if clash:
        raise Refusal(5, "s CLASH {} {}".format(*clash))


def made_of(job: Job, text: bytes) -> tuple[Setting, Stacks]:
    """The setting and the stacks of a job, where nothing refuses them."""
    setting = setting_of(job, text)
    if job.count:
        check_limit(job.count * len(setting.names), MOST_VALUES, 9, job.count)
    stacks = Stacks(job, setting.names, setting.weights)
    if job.command == "formula":
        refuse_clash(setting)
    return setting, stacks


def end_of(setting: Setting, board: Board, *counted: str) -> Answer:
    """The end of a run, with the lines of what was counted behind the cursors."""
    stuck = board.occurring()
    used = [" ".join(["used", *map(str, board.cursors)]), *counted]
    if stuck:
        return Answer(1, ["s EXHAUSTED", *map(setting.stuck_line, stuck), *used])
    return Answer(0, ["s SAMPLE", *setting.sample_lines(board.values), *used], setting)


def made_end_of(setting: TreeSetting, board: Board, pops: int, side: int) -> Answer:
    """The end of a run of `make`, in short."""
    stuck = board.occurring()
    middle = [f"used {sum(board.cursors)} {max(board.cursors, default=0)}", f"pops {pops}"]
    if stuck:
        return Answer(1, ["s EXHAUSTED", f"grid {side}", f"stuck {len(stuck)}", *middle])
    return Answer(0, ["s SAMPLE", f"grid {side}", *middle, f"sum {setting.made_sum(board.values)}"])


def with_history(job: Job, names: list[int], board: Board, records: list[Record], end: Answer) -> Answer:
    """The end of a run with these records, and behind it the log, the witness and the reports that are asked for."""
    log = layered(records)
    status, lines, sampled, _ = end
    if job.log:
        lines += log_lines(log, names)
    if job.witness:
        name, entry = job.witness
        witness = witness_lines([record for _, record in log], names, name, entry)
        if witness is None:
            cursor = board.cursors[names.index(name)] if name in names else 0
            witness = [f"witness none {name} {entry} {cursor}"]
            status = 6 if job.command == "resample" else status
        lines += witness
    return Answer(status, lines + report_lines(job.reports, log), sampled)
