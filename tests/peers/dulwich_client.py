"""A client over dulwich: dulwich_client.py VERB ADDRESS FOLDER. `deepen`, `unshallow` and `fetch` use that of the remote."""

import io
import sys

from dulwich import porcelain

VERB, ADDRESS, FOLDER = sys.argv[1:]
QUIET = {"errstream": io.BytesIO()}


def references():
    """Prints what the server lists, a line each."""
    found = porcelain.ls_remote(ADDRESS)
    for name, value in sorted(getattr(found, "refs", found).items()):
        if value is not None:
            print(value.decode(), name.decode())


VERBS = {
    "list": references,
    "clone": lambda: porcelain.clone(ADDRESS, FOLDER, **QUIET),
    "bare": lambda: porcelain.clone(ADDRESS, FOLDER, bare=True, **QUIET),
    "branch": lambda: porcelain.clone(ADDRESS, FOLDER, branch=b"topic", **QUIET),
    "depth": lambda: porcelain.clone(ADDRESS, FOLDER, depth=1, **QUIET),
    "filter-bare": lambda: porcelain.clone(ADDRESS, FOLDER, bare=True, filter_spec="blob:none", **QUIET),
    "filter-checkout": lambda: porcelain.clone(ADDRESS, FOLDER, filter_spec="blob:none", **QUIET),
    "deepen": lambda: porcelain.fetch(FOLDER, "origin", depth=2, **QUIET),
    "unshallow": lambda: porcelain.fetch(FOLDER, "origin", depth=2147483647, **QUIET),
    "fetch": lambda: porcelain.fetch(FOLDER, "origin", **QUIET),
}
VERBS[VERB]()
