"""Where the chip table is that nobody has named, and the chips of one."""

import os

from .faults import Fault, refused
from .held import hold

# the machine's own table, and the installed ones
MACHINES = "/etc/stmflash/chips.toml"
TABLES = ("/usr/local/share/stmflash/chips.toml", "/usr/share/stmflash/chips.toml")
# the one that is installed with us, under whatever PREFIX
BESIDE = os.path.join(os.path.dirname(os.path.dirname(os.path.abspath(__file__))), "chips.toml")
# what stmflash asks of a chip's entry
KEYS = ("id", "base", "pages", "erase", "erased", "unique", "size_at", "tried")


def users_own():
    """Where stmflash has the user's own table; nothing where there is no such place."""
    config, home = (os.environ.get(name, "") for name in ("XDG_CONFIG_HOME", "HOME"))
    if not config.startswith("/"):
        config = home.startswith("/") and os.path.join(home, ".config")
    return os.path.join(config, "stmflash", "chips.toml") if config else ""


def in_order(installed=None):
    """The tables that stmflash reads without a word, of the installed ones the first that is there. What a chip is says the first that has it."""
    if named := os.environ.get("STMFLASH_TABLE"):
        return [named]
    return [*filter(os.path.exists, (users_own(), MACHINES)), *list(filter(os.path.isfile, installed or (*TABLES, BESIDE)))[:1]]


def entries(path):
    """The chips of a table, before which one byte order mark may stand, as for stmflash."""
    # loaded by few
    import tomllib
    with open(path, encoding="utf-8-sig", newline="") as file:
        return tomllib.loads(file.read())["chip"]


def read_chips(named, option):
    """The chips of a table that is named, or of those that stmflash takes without a word, and the tables. That a chip is within stmflash's
    limits is asked where it counts. `option` is what names another table."""
    paths, chips = [named] if named else in_order() or TABLES[:1], []
    for path in paths:
        try:
            chips += (found := entries(path))
            for chip in found:
                if chip["erase"] not in ("page", "extended") or chip["id"] < 0 or chip["base"] < 0 or chip.get("erased", 0xFF) not in (0, 0xFF):
                    raise ValueError
                if any(count < 1 or size < 256 or size % 256 for count, size in chip["pages"]) or sum(c * s for c, s in chip["pages"]) > 1 << 21:
                    raise ValueError
        except OSError as error:
            raise refused(path, error, f"{option} names another") from None
        except (ValueError, TypeError, KeyError):
            raise Fault(f"{path}: is no chip table; {option} names another") from None
    return chips, paths


def toml(value):
    """A value in TOML."""
    if isinstance(value, bool):
        return str(value).lower()
    if isinstance(value, dict):
        return "{ " + ", ".join(f"{toml(name)} = {toml(held)}" for name, held in value.items()) + " }"
    if isinstance(value, (list, tuple)):
        return "[" + ", ".join(map(toml, value)) + "]"
    if isinstance(value, str):
        # TOML has no form for a byte that is no text
        text = value.encode(errors="surrogateescape").decode(errors="replace")
        return '"' + "".join(c if c >= " " and c not in '"\\\x7f' else f"\\u{ord(c):04X}" for c in text) + '"'
    return str(value)


def table_text(chips):
    """Entries as one table, with what stmflash asks of them."""
    return "".join("[[chip]]\n" + "".join(f"{key} = {toml(chip[key])}\n" for key in KEYS if key in chip) for chip in chips).encode()


def handed_on():
    """The name of a table for a stmflash that doesn't find the one that is installed with us: that, or one made of it and of those that
    go over it; else nothing, also where one is no table, as stmflash says itself."""
    found, chips = in_order(), []
    if BESIDE in TABLES or found[-1:] != [BESIDE]:
        return ""
    try:
        for path in found if found[1:] else ():
            chips += [chip for chip in entries(path) if chip["id"] not in [it["id"] for it in chips]]
    except (OSError, ValueError, TypeError, KeyError):
        return ""
    return f"/proc/{os.getpid()}/fd/{hold(table_text(chips))}" if chips else BESIDE
