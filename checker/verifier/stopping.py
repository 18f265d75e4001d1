"""Runs that are stopped after so many pops, the certificates that tell them, and runs that go on from these."""

from __future__ import annotations

from .certificates import front_of, read_certificate
from .command_line import Job
from .ends import Answer, Setting, end_of, made_of, with_history
from .log_texts import read_ended_log, read_log_text, read_told
from .refusals import Difference
from .runs import Board, Record
from .stacks import Stacks


def is_stopped(job: Job, setting: Setting, stacks: Stacks, printed: list[str]) -> bool:
    """Whether a run is stopped before its end: of a resampling, whose order of pops is free, as the output says; else
    where the one-thread run has more pops.
    """
    if not job.pops:
        return False
    if job.command == "resample":
        return printed[:1] == ["cert 1 resample"]
    return len(Board(setting.family, stacks, len(setting.names)).run_first()) > job.pops


def stopped(job: Job, setting: Setting, board: Board, text: bytes, printed: list[str]) -> Answer:
    """The certificate of a run that is stopped where an event is poppable. Which legal log it has, of as many records
    as are asked for, the output says.
    """
    front = front_of(job, text)
    head = f"{front}log 2 {job.pops}\n"
    told = "".join(f"{line}\n" for line in printed)
    if told.startswith(head):
        read_told(board, setting.names, told[len(front):], front.count("\n"))
        if not board.first_poppable():
            raise Difference(len(printed), "the log ends where no event can be popped")
        head = told
    return Answer(10, head.split("\n")[:-1])


def replayed(data: bytes) -> Answer:
    """The answer of `replay`: how far the log of a certificate leads."""
    certificate = read_certificate(data)
    setting, stacks = made_of(certificate.job, certificate.text)
    board = Board(setting.family, stacks, len(setting.names))
    records = read_log_text(board, setting.names, certificate.log)
    status, end = (1, "exhausted") if board.occurring() else (0, "sample")
    if board.first_poppable():
        status, end = 10, "open"
    used = " ".join(["used", *map(str, board.cursors)])
    return Answer(status, [f"s LEGAL {len(records)}", used, f"end {end}"])


def went_on(board: Board, names: list[int], before: list[Record], printed: list[str]) -> list[Record]:
    """The log of a resampling that went on from these records, by what is printed. Which pops come behind them, it
    says; it has these, and since it is legal the others are legal behind them.
    """
    records = read_ended_log(board, printed, names)
    for record in before:
        if record not in records:
            raise Difference(len(printed), f"a record of event {record.event.number} in the certificate is missing")
    return records


def resumed(data: bytes, printed: list[str]) -> Answer:
    """The answer of `resume`: the end to which a run goes on from the log of a certificate."""
    certificate = read_certificate(data)
    job = certificate.job
    setting, stacks = made_of(job, certificate.text)
    board = Board(setting.family, stacks, len(setting.names))
    records = read_log_text(board, setting.names, certificate.log)
    if job.command == "resample":
        board = Board(setting.family, stacks, len(setting.names))
        records = went_on(board, setting.names, records, printed)
    else:
        records += board.run_first()
    end = end_of(setting, board, f"pops {len(records)}")
    return with_history(job, setting.names, board, records, end)
