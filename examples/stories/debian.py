#!/usr/bin/env python3
"""Writes which package needs which, as this Debian machine's index has it: debian.py [PACKAGE ..] > debian.csv

A row for each package that one needs: the package, what it needs, `depends` or `recommends`, and the day of the package's last
upload, as 20230115, by its changelog. With packages named, those alone and all that they need; without, those that Debian calls
required, important or standard, and what those need. Of alternatives the first one that is installed is taken.

From /var/lib/dpkg/status and /usr/share/doc/*/changelog*.gz. Those texts are Debian's and their authors', each under its
package's licence (/usr/share/doc/PACKAGE/copyright); taken are names, dates, and the fact that one package needs another.
"""
import email.utils
import gzip
import pathlib
import re
import sys

FIELDS = {"Pre-Depends": "depends", "Depends": "depends", "Recommends": "recommends"}


def packages():
    """The fields of each installed package, by name."""
    text = pathlib.Path("/var/lib/dpkg/status").read_text(encoding="utf-8")
    found = [dict(re.findall(r"(?m)^([\w-]+): (.*)$", it)) for it in text.split("\n\n")]
    return {it["Package"]: it for it in found if it.get("Status", "").endswith(" installed")}


def needed(fields, installed):
    """What a package needs, with the kind."""
    seen = {}
    for field, kind in FIELDS.items():
        for choice in fields.get(field, "").split(","):
            names = [re.split(r"[\s:(]", it.strip())[0] for it in choice.split("|")]
            seen.update({it: kind for it in [it for it in names if it in installed][:1] if it not in seen})
    return seen


def day(package):
    """The day of the last upload, by the package's changelog: 0 where it has none."""
    for name in ("changelog.Debian.gz", "changelog.Debian.amd64.gz", "changelog.gz"):
        try:
            with gzip.open(f"/usr/share/doc/{package}/{name}", "rt", encoding="utf-8", errors="replace") as file:
                line = next((it for it in file if it.startswith(" -- ")), "")
            return email.utils.parsedate_to_datetime(line.split("  ")[-1].strip()).strftime("%Y%m%d")
        except (OSError, ValueError, TypeError, IndexError):
            pass
    return "0"


def main(*named):
    installed = packages()
    basic = ("required", "important", "standard")
    waiting = list(named) or [it for it, told in installed.items() if told.get("Priority") in basic]
    print("package,needs,kind,uploaded")
    seen = set(waiting)
    for package in waiting:
        for other, kind in sorted(needed(installed[package], installed).items()):
            print(f"{package},{other},{kind},{day(package)}")
            if other not in seen:
                seen.add(other)
                waiting.append(other)


if __name__ == "__main__":
    main(*sys.argv[1:])
