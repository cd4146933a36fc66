"""The commands of the desk, in the order in which its help lists them."""

from importlib import import_module
from types import ModuleType

# Each is a module of this package with add_parser(subparsers) and run(arguments) -> int.
NAMES = [
    "sheet",
    "events",
    "check",
    "table",
    "compare",
    "why",
    "replay",
    "picture",
]


def modules() -> list[ModuleType]:
    """The modules of all commands."""
    return [import_module(f"{__package__}.{name}") for name in NAMES]
