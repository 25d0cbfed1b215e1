# SPDX-License-Identifier: Apache-2.0
"""A client of Hopslintel, a store of SPIFFE trust bundles.

    from hopslintel import Client

    with Client.connect(8443) as store:
        store.set("a.example", {"keys": [], "spiffe_sequence": 7})
        store.get("a.example")  # b'{"keys":[],"spiffe_sequence":7}'
        store.fetch_all()       # {"a.example": b'...'}: all, at one moment

It speaks the binary protocol of docs/FORMATS.md, over TCP, over a Unix
socket or over a pair of streams. A method asks one operation and returns what
it gives; an answer that it was not done is raised. `Client.ask` and
`Client.pipeline` return every answer as a value.

`hopslintel.aio` has the client for asyncio, and `hopslintel.session` the
protocol without input and output. It needs Python 3.8 or later, and nothing
besides the standard library.
"""
from .bundles import bundle_map, dump, jwks, pem, x509_authorities
from .changes import Changes, changes_between
from .client import Client
from .errors import (DisconnectedError, GivenUpError, HopslintelError,
                     NoDomainError, ProtocolError, RefusedError,
                     TimedOutError, TooLongError)
from .reply import (All, Appended, Bundles, Counts, Found, GivenUp, Held,
                    Known, Moved, OutOfMemory, Refused, Removed, Reply, Same,
                    Shut, Stored, Unchanged, Version, Worn)
from .request import Document, Expect, Expected, Request
from .wire import MAX_BYTES, MAX_PAYLOAD

__version__ = "1.2.0.dev0"  # that of the program it is released with

__all__ = [
    "All", "Appended", "Bundles", "Changes", "Client", "Counts",
    "DisconnectedError", "Document", "Expect", "Expected", "Found",
    "GivenUp", "GivenUpError", "Held", "HopslintelError", "Known",
    "MAX_BYTES", "MAX_PAYLOAD", "Moved", "NoDomainError", "OutOfMemory",
    "ProtocolError", "Refused", "RefusedError", "Removed", "Reply",
    "Request", "Same", "Shut", "Stored", "TimedOutError", "TooLongError",
    "Unchanged", "Version", "Worn", "bundle_map", "changes_between",
    "dump", "jwks", "pem", "x509_authorities",
]
