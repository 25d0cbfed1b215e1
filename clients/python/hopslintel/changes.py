# SPDX-License-Identifier: Apache-2.0
"""What changed from one fetch-all to the next."""
from __future__ import annotations

from dataclasses import dataclass
from typing import Dict, Mapping, Tuple


@dataclass(frozen=True)
class Changes:
    """What changed, and all bundles as they are now."""

    bundles: Dict[str, bytes]
    """All, as they stood at one moment."""
    added: Dict[str, bytes]
    """The bundles of trust domains that had none."""
    changed: Dict[str, bytes]
    """The bundles that took the place of others."""
    removed: Tuple[str, ...]
    """The trust domains that have no bundle any more."""

    def __bool__(self) -> bool:
        """Whether anything changed."""
        return bool(self.added or self.changed or self.removed)


def changes_between(before: Mapping[str, bytes],
                    after: Mapping[str, bytes]) -> Changes:
    """What changed from the bundles before to those after. Canonical texts
    are equal if and only if the bundles are."""
    return Changes(
        bundles=dict(after),
        added={name: text for name, text in after.items()
               if name not in before},
        changed={name: text for name, text in after.items()
                 if before.get(name, text) != text},
        removed=tuple(name for name in before if name not in after))
