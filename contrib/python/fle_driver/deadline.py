"""The time by which a call has to end."""
from __future__ import annotations

import time
from typing import Optional

from .errors import TimedOut

MOST = 1_000_000  # seconds: what every wait of the system takes


class Deadline:
    """So many seconds from now, at most `MOST`; None is never."""

    def __init__(self, seconds: Optional[float]) -> None:
        self._seconds = seconds
        self._end = None if seconds is None else time.monotonic() + seconds

    def left(self) -> Optional[float]:
        """The seconds that are left, at least 0; None where it never comes."""
        return None if self._end is None else max(0.0, self._end - time.monotonic())

    def passed(self) -> TimedOut:
        """What a call raises then."""
        return TimedOut(f"fle gave no answer within {self._seconds} seconds")
