"""The example clients of the repository that need no library, as their users import them."""
import os
import sys

from .settings import TOP

CLIENTS = os.path.join(TOP, "examples", "clients")
sys.path.append(CLIENTS)

import export           # noqa: E402
import load             # noqa: E402
import once             # noqa: E402
import pool             # noqa: E402
import simple_client    # noqa: E402
import transfer         # noqa: E402
import walk             # noqa: E402

__all__ = ["CLIENTS", "export", "load", "once", "pool", "simple_client", "transfer", "walk"]
