"""The answer that belongs to words and an input, and for `resample` to the printed log."""

from __future__ import annotations

from .command_line import Job, read_words
from .ends import Answer, Setting, end_of, made_end_of, made_of, refuse_clash, setting_of, with_history
from .formulas import FormulaSetting
from .log_texts import read_ended_log
from .refusals import Difference, Refusal
from .rounds import run_rounds
from .runs import Board
from .stacks import Stacks
from .stopping import is_stopped, replayed, resumed, stopped


def batch_of(job: Job, setting: Setting, stacks: Stacks) -> Answer:
    """The ends of the runs on the samples from 0 on, each behind its number."""
    lines = [f"batch {job.count}"]
    status, ends = 0, []
    for sample in range(job.count or 0):
        board = Board(setting.family, stacks.for_sample(sample), len(setting.names))
        end = end_of(setting, board, f"pops {len(board.run_first())}")
        lines.append(f"sample {sample}")
        if end.setting:
            ends.append(len(lines))
        lines += end.lines
        status = max(status, end.status)
    return Answer(status, lines, setting, tuple(ends))


def rounded(setting: FormulaSetting, board: Board) -> Answer:
    """The answer of `rounds`."""
    rounds, short = run_rounds(board)
    counted = [f"rounds {rounds}"]
    if short is not None:
        counted.append(f"short {setting.names[short]}")
    return end_of(setting, board, *counted)


def ended(job: Job, setting: Setting, board: Board, printed: list[str]) -> Answer:
    """The answer of a run to its end."""
    records = read_ended_log(board, printed, setting.names) if job.command == "resample" else board.run_first()
    if job.pops and len(records) > job.pops:
        raise Difference(len(printed), "the run has more pops than it may have")
    if job.command == "make":
        end = made_end_of(setting, board, len(records), job.side)
    else:
        end = end_of(setting, board, f"pops {len(records)}")
    return with_history(job, setting.names, board, records, end)


def checked(setting: FormulaSetting) -> Answer:
    """The answer of `check`."""
    refuse_clash(setting)
    return Answer(0, [f"s EXTREMAL {len(setting.family.events)}"])


def run_of(job: Job, text: bytes, printed: list[str]) -> Answer:
    """The answer to a job, where nothing refuses it."""
    if job.command == "check":
        return checked(setting_of(job, text))
    if job.command == "replay":
        return replayed(text)
    if job.command == "resume":
        return resumed(text, printed)
    setting, stacks = made_of(job, text)
    if job.count:
        return batch_of(job, setting, stacks)
    board = Board(setting.family, stacks, len(setting.names))
    if job.command == "rounds":
        return rounded(setting, board)
    if is_stopped(job, setting, stacks, printed):
        return stopped(job, setting, board, text, printed)
    return ended(job, setting, board, printed)


def answer_to(words: list[str], text: bytes, printed: list[str]) -> Answer:
    """The answer that belongs to command words and an input; of `resample` the one with the printed log."""
    try:
        return run_of(read_words(words), text, printed)
    except Refusal as refusal:
        return Answer(refusal.status, [refusal.line])
