"""Programs for Windows on this machine, by wine: bin/wine is its folder of settings, WINEPREFIX another."""

import ctypes
import os
import pathlib
import re
import subprocess

TOP = os.path.dirname(os.path.dirname(os.path.abspath(__file__)))
WINE, SERVER = "/usr/lib/wine/wine64", "/usr/lib/wine/wineserver64"
PREFIX = os.environ.get("WINEPREFIX") or f"{TOP}/bin/wine"


def variables(more):
    return {"PATH": "/usr/bin:/bin", "LC_ALL": "C.UTF-8", "WINEPREFIX": PREFIX, "WINEDEBUG": "-all", **more}


def begin():
    """Makes the folder of settings where it isn't there: without services, of which one is asked for each file's volume, and zones of time,
    which each start searches. Begins a server that stays, and what a first start begins, which would hold a test's pipe open. Addresses of
    what is called from here aren't random: one start's heap of 2,000 lay where wine wants a page."""
    ctypes.CDLL(None).personality(0x40000)
    registry, quiet = pathlib.Path(PREFIX, "system.reg"), {"env": variables({}), **dict.fromkeys(("stdin", "stdout", "stderr"), subprocess.DEVNULL)}
    if not registry.exists():
        subprocess.run([WINE, "cmd", "/c", "exit"], check=True, **quiet)
        subprocess.run([SERVER, "-k"], check=True, **quiet)
        parts = re.split(rb"(?m)^(?=\[)", registry.read_bytes())
        registry.write_bytes(b"".join(it for it in parts if not re.match(rb"\[.*\\\\(Services|Time Zones)\\\\", it)))
    subprocess.run([SERVER, "-p300"], **quiet)
    subprocess.run([WINE, "cmd", "/c", "exit"], check=True, **quiet)


def run(words, cwd, env, timeout):
    """Runs a program in a folder, with these variables beside wine's own. What it says goes to a file: wine's services would hold a pipe open."""
    with open(f"{cwd}.said", "w+", encoding="utf-8", errors="replace") as said:
        ran = subprocess.run([WINE, *words], cwd=cwd, env=variables(env), stdin=subprocess.DEVNULL, stdout=said, stderr=said, timeout=timeout)
        said.seek(0)
        ran.stdout = said.read()
    return ran
