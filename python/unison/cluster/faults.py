"""Why a run is not begun: told once, by one process, and known to all of them."""

from typing import Any, Callable, List, Optional, TypeVar

from .. import faults

T = TypeVar("T")
FAULT, USAGE, REFUSED = 1, 2, 3  # the statuses of docs/formats.md


class Refusal(Exception):
    """A fault line without its `fault: `, what is told below it, and the status with which the command ends."""

    def __init__(self, line: str, told: str = "", status: int = REFUSED) -> None:
        super().__init__(line, told, status)
        self.line, self.told, self.status = line, told, status

    def __str__(self) -> str:
        return f"fault: {self.line}" + (f"\n{self.told}" if self.told else "")


def usage(told: str) -> Refusal:
    """The refusal of invalid arguments."""
    return Refusal("usage", told, USAGE)


def refusal_of(error: Exception) -> Optional[Refusal]:
    """The refusal that an exception stands for; None where it is none that a user can bring about."""
    if isinstance(error, Refusal):
        return error
    if isinstance(error, faults.UnisonError):
        return Refusal(f"{error.part} {error.name}", str(error))
    if isinstance(error, MemoryError):
        return Refusal("memory Memory", "", FAULT)
    if isinstance(error, (OSError, ImportError)):
        named = f"{error.filename}: {error.strerror}" if isinstance(error, OSError) and error.filename else str(error)
        return Refusal("file", named, FAULT)
    return None


def agreed(comm: Any, work: Callable[[], T]) -> T:
    """What each process makes by itself; where some refuse, all raise the refusal of the first of them."""
    made: List[T] = []
    refusal = None
    try:
        made.append(work())
    except Exception as error:
        refusal = refusal_of(error)
        if refusal is None:
            raise
    first = next((found for found in comm.allgather(refusal) if found is not None), None)
    if first is not None:
        raise first
    return made[0]
