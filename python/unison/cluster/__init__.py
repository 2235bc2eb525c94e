"""Rounds on a packed network by many processes, on one machine or many, by MPI (docs/cluster.md). It needs numpy and mpi4py.

    mpirun -n 16 python -m unison.cluster PROGRAM NETWORK --rounds T

or `unison.cluster.run(..)` in a program that mpirun starts.
"""

from .faults import Refusal
from .running import Outcome, run

__all__ = ["Outcome", "Refusal", "run"]
