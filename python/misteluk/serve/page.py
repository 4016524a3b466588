"""What a browser may do with the server's page: load its own files, and show a neighborhood's page in a frame."""
from __future__ import annotations

import base64
import hashlib

from ..page.page import script

# The page and its parts, by their paths, with the media type of each.
FILES = {"/": ("live.html", "text/html; charset=utf-8"), "/live.css": ("live.css", "text/css"),
         **{f"/{name}": (name, "text/javascript") for name in ("live.js", "asking.js", "looking.js", "rates.js")}}


def _sum(text: str) -> str:
    return base64.b64encode(hashlib.sha256(text.encode("utf-8")).digest()).decode("ascii")


# (a frame that is given as a text has the policy of the page that gives it: the one script that such a page has is told by its
# sum, so that no other one runs)
POLICY = (f"default-src 'none'; script-src 'self' 'sha256-{_sum(script())}'; style-src 'self' 'unsafe-inline'; "
          "connect-src 'self'; base-uri 'none'; form-action 'none'; frame-ancestors 'none'")
# What a neighborhood's page may do where a browser is led to it: run its own script alone, and ask nobody.
VIEWED = (f"default-src 'none'; script-src 'sha256-{_sum(script())}'; style-src 'unsafe-inline'; base-uri 'none'; "
          "form-action 'none'; frame-ancestors 'none'")
