"""What a language server is told on its command line and by the editor."""
import os
from dataclasses import dataclass, replace
from typing import Any, Callable

from .path_words import is_path, suggestion
from .tree_parts import is_text

USUAL_RULES = ('.semscan/rules.yaml', 'semscan.yaml')


@dataclass(frozen=True)
class Settings:
    """Rule files and folders of them, the prefixes that are scanned, how long to wait after a change, and words for the program."""
    config: tuple[str, ...] = ()
    paths: tuple[str, ...] = ('.',)
    debounce: int = 150
    max: int = 50_000
    trace: bool = False

    def options(self) -> list[str]:
        """The options of the program's session."""
        return (['--max', str(self.max)] if self.max != 50_000 else []) + (['--trace'] if self.trace else [])


def is_number(value: Any) -> bool:
    return type(value) is int and 0 <= value <= 50_000


def texts(value: Any) -> bool:
    return type(value) is str or type(value) is list and all(type(item) is str for item in value)


SHAPES: dict[str, Callable[[Any], bool]] = {
    'config': texts, 'paths': texts, 'debounce': is_number, 'max': is_number, 'trace': lambda value: type(value) is bool}


def with_values(settings: Settings, value: Any) -> tuple[Settings, list[str]]:
    """The settings with those that a value of the editor has, and what is wrong with the value. What is wrong changes nothing."""
    if value is None:
        return settings, []
    if type(value) is not dict:
        return settings, ['the settings are no object']
    faults = ['the setting %s has a value that it cannot have' % key for key in SHAPES if key in value and not SHAPES[key](value[key])]
    faults += ['there is no setting %s' % ascii(key) for key in value if key not in SHAPES]
    good = {key: value[key] for key in SHAPES if key in value and SHAPES[key](value[key])}
    for key in ('config', 'paths'):
        if key in good:
            good[key] = (good[key],) if type(good[key]) is str else tuple(good[key])
    return replace(settings, **good), faults


def prefixes_of(settings: Settings, folder: str) -> tuple[tuple[str, ...], list[str]]:
    """The prefixes to scan as semscan takes them, none below another, and what is wrong with those that are left out."""
    found, faults = [], []
    for word in settings.paths:
        prefix = word if word == '.' or is_path(word) else suggestion(os.path.expanduser(word), folder)
        if prefix is None or not is_text(prefix):
            faults.append('%s in the setting paths is not below %s' % (ascii(word), folder))
        else:
            found.append(prefix)
    if '.' in found:
        return ('.',), faults
    found = [prefix for prefix in dict.fromkeys(found) if not any(prefix.startswith(other + '/') for other in found)]
    return tuple(found), faults


def rule_places(settings: Settings, folder: str) -> list[str]:
    """Where rules are looked for, as whole paths."""
    if settings.config:
        return [os.path.normpath(os.path.join(folder, os.path.expanduser(word))) for word in settings.config]
    return [place for place in (os.path.join(folder, name) for name in USUAL_RULES) if os.path.isfile(place)][:1]
