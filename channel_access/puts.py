"""Put callbacks: the IOC's places for them, shared by clients.

A client may have as many live as there are places free, so that one which comes later finds some; whose turn it is goes round.
"""
from collections import deque
from typing import Deque, Dict, Hashable, Optional, Set, Tuple

from .interface import Done, Field, Given, Ioc, PutCallback, Record

# How many of one client may wait for a place.
MOST_WAITING = 1000


class Puts:
    """The put callbacks of all clients, each of which is an owner."""

    def __init__(self, ioc: Ioc) -> None:
        self._ioc, self._free = ioc, ioc.most_live_puts
        self._waiting: Dict[Hashable, Deque[Tuple[Record, Field, Given, Done]]] = {}
        self._live: Dict[Hashable, Set[PutCallback]] = {}

    def begin(self, owner: Hashable, record: Record, field: Field, given: Given, done: Done) -> bool:
        """Begins a put callback, or lets it wait. False if too many of the owner wait: then `done` is never called."""
        waiting = self._waiting.setdefault(owner, deque())
        if len(waiting) >= MOST_WAITING:
            return False
        waiting.append((record, field, given, done))
        self._go_on()
        return True

    def give_up(self, owner: Hashable) -> None:
        """Drops what an owner has: nothing of it begins or ends any more."""
        self._waiting.pop(owner, None)
        for begun in self._live.pop(owner, ()):
            self._ioc.cancel(begun, self._freed)

    def _freed(self) -> None:
        self._free += 1
        self._go_on()

    def _next(self) -> Optional[Hashable]:
        """The owner whose turn it is, if any that waits may have one more."""
        return next((owner for owner in self._waiting if len(self._live.get(owner, ())) < self._free), None)

    def _go_on(self) -> None:
        owner = self._next()
        while owner is not None:
            waiting = self._waiting.pop(owner)
            self._start(owner, *waiting.popleft())
            if waiting:
                self._waiting[owner] = waiting  # at the end of the round
            owner = self._next()

    def _start(self, owner: Hashable, record: Record, field: Field, given: Given, done: Done) -> None:
        def ended(refusal: Optional[str], place: Optional[int]) -> None:
            live = self._live[owner]
            live.remove(begun)
            if not live:
                del self._live[owner]
            done(refusal, place)
            self._freed()

        self._free -= 1
        begun = self._ioc.notify(record, field, given, ended)
        self._live.setdefault(owner, set()).add(begun)
