"""The parts of a soak by their names. A part more, as one for a hub that runs on for months, is a module more beside these,
and its line here."""
from importlib import import_module

from soaking.cases import Part
from soaking.forms import FORMS

MODULES = {
    "documents": "documents",
    "scripts": "scripts",
    "policies": "policies",
    "audits": "audits",
    "captures": "captures",
    "configurations": "configurations",
    "commands": "commands",
    "frames": "frames",
    "run": "running",
    "serve": "serving",
}
PARTS: dict[str, Part] = {name: import_module(f"soaking.{module}") for name, module in MODULES.items()}


def all_forms() -> list[str]:
    """What a soak of all parts is to meet: the common forms, and those that a part alone has."""
    own = [form for part in PARTS.values() for form in getattr(part, "FORMS", [])]
    return list(dict.fromkeys([*FORMS, *own]))


def share_of(name: str) -> float:
    """How much of the time a part has beside the others."""
    return getattr(PARTS[name], "SHARE", 1.0)
