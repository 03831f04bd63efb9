"""Subscriptions: who hears of the changes of a field. A client that doesn't read keeps the latest value of each, and no more."""
from typing import TYPE_CHECKING, Dict, Optional

from .interface import PROPERTY, Extent, Ioc, Reading, Wanted, Watch
from .values import Served, extent_of, is_text_form

if TYPE_CHECKING:
    from .channels import Circuit


class Subscription:
    """A subscription of a client, with the numbers by which the client knows it and its channel."""

    __slots__ = "circuit", "channel", "server_number", "number", "form", "count", "mask", "has_begun", "kept"

    def __init__(self, circuit: "Circuit", channel: Served, server_number: int, number: int, form: int, count: int, mask: int) -> None:
        self.circuit, self.channel, self.server_number, self.number = circuit, channel, server_number, number
        self.form, self.count, self.mask = form, count, mask
        self.has_begun = False
        self.kept: Optional[Reading] = None

    def post(self, reading: Optional[Reading]) -> None:
        """Sends a value or that there is none, or keeps the value in place of one that was kept before."""
        self.kept = None if self.circuit.may_send() else reading
        if self.kept is None:
            self.circuit.send_value(self, reading)
        else:
            self.circuit.kept[self.number] = self


def _wanted(subscription: Subscription) -> Wanted:
    """What has to be watched for a subscription."""
    channel, form = subscription.channel, subscription.form
    with_properties = extent_of(form) is Extent.PROPERTIES or subscription.mask & PROPERTY > 0
    return Wanted(channel.record, channel.field, is_text_form(channel, form), with_properties)


class _Shared:
    """What is watched, with its subscriptions. The first value of each is asked for it."""

    watch: Watch

    def __init__(self) -> None:
        self.subscriptions: Dict[Subscription, None] = {}

    def told(self, mask: int, reading: Reading) -> None:
        for subscription in self.subscriptions:
            if subscription.has_begun and subscription.mask & mask:
                subscription.post(reading)


class Monitors:
    """All subscriptions, by what is watched for them."""

    def __init__(self, ioc: Ioc) -> None:
        self._ioc = ioc
        self._shared: Dict[Wanted, _Shared] = {}

    def subscribe(self, subscription: Subscription) -> None:
        """Adds a subscription: its first value comes, and then each change that its mask has."""
        wanted = _wanted(subscription)
        shared = self._shared.get(wanted)
        if shared is None:
            shared = self._shared[wanted] = _Shared()
            shared.watch = self._ioc.watch(wanted, shared.told)
        subscriptions = shared.subscriptions
        subscriptions[subscription] = None

        def first(reading: Optional[Reading]) -> None:
            subscription.circuit.end_request()
            if subscription in subscriptions:
                subscription.has_begun = True
                subscription.post(reading)

        self._ioc.look(shared.watch, first)

    def cancel(self, subscription: Subscription) -> None:
        """Removes a subscription: nothing more is sent for it."""
        shared = self._shared[_wanted(subscription)]
        del shared.subscriptions[subscription]
        if not shared.subscriptions:
            self._ioc.unwatch(shared.watch)
            del self._shared[_wanted(subscription)]
