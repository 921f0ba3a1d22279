"""The clock of a capture: ticks between its payloads."""
from .header import KEPT_FOR


class Ticks:
    """One for each second that begins; of a pause those that drop keys, and the last one."""

    def __init__(self):
        self.next = 1_000            # the moment of the next tick
        self.latest = 0              # the latest moment of a payload

    def until(self, moment):
        """The moments of the ticks until this one."""
        end = moment // 1000 * 1000
        if end >= self.next:
            at = self.next
            while at <= min(end - 1, self.last_drop()):
                yield at
                at += 1000
            yield end
            self.next = end + 1000

    def last_drop(self):
        """The moment of the tick that drops the last key."""
        return ((self.latest + KEPT_FOR) // 1000 + 1) * 1000
