"""The cases of the stored run, in their order: each line states the reply in short and the request that gets it.

A further case is a further line of one of these modules. `python3 tools/stored_run.py` makes the run again.
"""
from . import first, providers, exchanges, narrowing, impersonation, delegation, mixed, limits
from .requests import CASES

__all__ = ['CASES', 'first', 'providers', 'exchanges', 'narrowing', 'impersonation', 'delegation', 'mixed', 'limits']
