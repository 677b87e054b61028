"""What a batch is called with: `--config` of Snakemake. A ValueError says what is wrong with it."""
import os
import re
import shlex
from dataclasses import dataclass

from drives import read_table, row_of

PLACES = ("record", "dag", "out", "trace")
TOP = os.path.join(os.path.dirname(os.path.abspath(__file__)), "..")


@dataclass
class Settings:
    """The settings of a batch, each a text, empty where it isn't given."""

    table: str = "drives.csv"
    program: str = os.path.join(TOP, "crates", "cyber", "out", "cyber")
    out: str = "batch.out"
    good: str = ""
    verify: str = ""
    reports: str = ""


def settings_of(config):
    """The settings of a batch and its drives."""
    strange = sorted(set(config) - set(vars(Settings())))
    if strange:
        raise ValueError(f"no such setting: {', '.join(strange)}; there are {', '.join(vars(Settings()))}")
    settings = Settings(**{name: str(value) for name, value in config.items()})
    drives = read_table(settings.table)
    check_good(settings, drives)
    check_verify(settings.verify)
    if settings.reports not in ("", "yes"):
        raise ValueError(f"reports={settings.reports}: this may be yes, or is left out")
    return settings, drives


def check_good(settings, drives):
    """Raises a ValueError where the good batch isn't there, is this batch, or has no run of these drives."""
    if not settings.good:
        return
    if not os.path.isdir(settings.good):
        raise ValueError(f"good={settings.good}: no such folder")
    if os.path.realpath(settings.good) == os.path.realpath(settings.out):
        raise ValueError(f"good={settings.good}: this batch is written there; give it another folder by out=")
    if all(row_of(settings.good, name) is None for name in drives):
        raise ValueError(f"good={settings.good}: no run of these drives is there")


def check_verify(words):
    """Raises a ValueError where a further command has an open quote, or names a file that a drive doesn't have."""
    try:
        shlex.split(words)
    except ValueError as error:
        raise ValueError(f"verify={words}: {error}") from None
    for name in re.findall(r"\{(\w*)\}", words):
        if name not in PLACES:
            raise ValueError(f"verify={words}: no file {{{name}}}; there are {', '.join(f'{{{it}}}' for it in PLACES)}")
