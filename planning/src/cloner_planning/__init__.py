"""The planners' tools of cloner: plain Python, unproved, for readers of traces.

As a library: `Study` runs a study with several seeds, `ModelBuilder` and `ScriptBuilder` write its files.
"""
import importlib
from typing import TYPE_CHECKING, Any

if TYPE_CHECKING:
    from .builder import ModelBuilder as ModelBuilder
    from .builder import Way as Way
    from .errors import PlanningError as PlanningError
    from .library import Due as Due
    from .library import Row as Row
    from .library import Rows as Rows
    from .library import Study as Study
    from .script_builder import ScriptBuilder as ScriptBuilder

__version__ = "0.1.0"
_HOMES = {"ModelBuilder": "builder", "Way": "builder", "PlanningError": "errors", "Due": "library", "Row": "library",
          "Rows": "library", "Study": "library", "ScriptBuilder": "script_builder"}
__all__ = ["__version__", *_HOMES]


def __getattr__(name: str) -> Any:
    """Returns a name of the library; its module is imported when it is first used."""
    if name in _HOMES:
        return getattr(importlib.import_module(f"{__name__}.{_HOMES[name]}"), name)
    raise AttributeError(f"module {__name__} has no attribute {name}")
