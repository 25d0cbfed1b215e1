# SPDX-License-Identifier: Apache-2.0
"""What other programs read: of all bundles, or of one in canonical text."""
from __future__ import annotations

import base64
import collections.abc
import json
from typing import Any, Dict, List, Mapping

from .request import Document
from .wire import frame, sized


def dump(bundles: Mapping[str, bytes]) -> bytes:
    """A dump of bundles in canonical text: what `bundled serve --load` and
    `bundled migrate` read. Equal sets of bundles have equal dumps."""
    items = (b"i" + sized(name) + bundles[name] for name in sorted(bundles))
    head = b"a" + len(bundles).to_bytes(8, "big")
    return b"".join(frame(payload) for payload in (head, *items))


def bundle_map(bundles: Mapping[str, bytes]) -> bytes:
    """A SPIFFE bundle map, the JSON text that gRPC and Envoy read."""
    members = (b'"' + name.encode() + b'":' + bundles[name]
               for name in sorted(bundles))
    return b'{"trust_domains":{' + b",".join(members) + b"}}\n"


def x509_authorities(bundle: Document) -> List[bytes]:
    """The X.509 authorities of a bundle, each in DER, in its order."""
    return [base64.b64decode(key["x5c"][0])
            for key in _keys(bundle, "x509-svid")]


def pem(bundle: Document) -> bytes:
    """The same as PEM, the bytes that `bundled pem` writes.

    They are empty if the bundle has no X.509 authority. Many programs refuse
    an empty file and go on with the one before, so look for that first.
    """
    lines: List[bytes] = []
    for authority in x509_authorities(bundle):
        text = base64.b64encode(authority)
        lines.append(b"-----BEGIN CERTIFICATE-----")
        lines += (text[at:at + 64] for at in range(0, len(text), 64))
        lines.append(b"-----END CERTIFICATE-----")
    return b"".join(line + b"\n" for line in lines)


def jwks(bundle: Document) -> Dict[str, List[Dict[str, Any]]]:
    """The JWT authorities of a bundle as a JWK set whose keys have the use
    `sig`, which is what libraries for JWT want."""
    return {"keys": [{**key, "use": "sig"}
                     for key in _keys(bundle, "jwt-svid")]}


def _keys(bundle: Document, use: str) -> List[Dict[str, Any]]:
    return [key for key in _parsed(bundle)["keys"] if key.get("use") == use]


def _parsed(bundle: Document) -> Mapping[str, Any]:
    if isinstance(bundle, collections.abc.Mapping):
        return bundle
    text = bytes(bundle) if isinstance(bundle, memoryview) else bundle
    parsed: Dict[str, Any] = json.loads(text)
    return parsed
