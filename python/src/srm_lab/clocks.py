"""The losses and timers of a run, which a trace does not name: put together from its rows."""
from .follower import Name, Packet, Step
from .loss import Loss
from .marks import Asked, mark_of, scope_of_repair, scope_of_request, serves
from .rest import Rest
from .scenario import Scenario
from .timer import Timer


class Clocks:
    """The losses and timers that are open; each is handed on when it begins and when it ends.

    `begun` and `ended` are what began and ended with the last step. Timers tell how far requests and repairs go: each
    packet that a step sends gets its scope.
    """

    def __init__(self, given: Scenario) -> None:
        self.given = given
        self._losses: dict[int, dict[Name, Loss]] = {}
        self._timers: dict[int, dict[tuple[str, Name], Timer]] = {}
        self._rests: dict[tuple[int, Name], Rest] = {}
        self.begun: list[Loss | Timer] = []
        self.ended: list[Loss | Timer] = []

    def take(self, step: Step) -> None:
        """Follows a step."""
        self.begun, self.ended = [], []
        for name in step.lost:
            loss = Loss(step.row.member, name, step.row.time)
            self._losses.setdefault(loss.member, {})[name] = loss
            self.begun.append(loss)
            self._start(step, "request", name)
        if step.row.cause == "leave":
            self._leave(step)
        elif step.name is not None:
            self._follow(step, step.name)

    def _follow(self, step: Step, name: Name) -> None:
        """What the step says of the losses and timers of its name."""
        row = step.row
        if row.result == "fixed":
            loss = self._losses[row.member].pop(name)
            loss.recovered = row.time
            self.ended.append(loss)
            self._stop(step, "request", name, "stopped")
        elif row.result == "back":
            self._back_off(step, name, "backed off")
        elif row.result == "plan" and step.heard is not None:
            self._plan(step, name, Asked(step.heard.sender, step.heard.scope))
        elif row.result == "busy" and step.heard is not None:
            self._take_over(row.member, name, Asked(step.heard.sender, step.heard.scope))
        if row.cause == "repair" and row.result != "skip" and step.heard is not None:
            self._hear_repair(step, name, step.heard)
        elif row.result == "sent" and step.sent is not None:
            self._send(step, name, step.sent)

    def _send(self, step: Step, name: Name, packet: Packet) -> None:
        """A request or a repair is sent, as far as the timer says that ends with it."""
        member = packet.sender
        if step.row.cause == "ask":
            packet.scope = scope_of_request(self.given, member, self._back_off(step, name, "expired"))
        elif step.row.cause == "answer":
            timer = self._stop(step, "repair", name, "expired")
            if timer is not None and timer.asked is not None:
                packet.asked = timer.asked
                packet.scope = scope_of_repair(self.given, member, timer.asked)
            self._rest(step, name, packet, timer)

    def _back_off(self, step: Step, name: Name, how: str) -> int:
        """A request timer is set anew; how many backoffs it had before."""
        timer = self._stop(step, "request", name, how)
        before = 0 if timer is None else timer.backoffs
        self._start(step, "request", name).backoffs = before + 1
        return before

    def _plan(self, step: Step, name: Name, asked: Asked) -> None:
        timer = self._start(step, "repair", name)
        timer.set_for, timer.asked = asked.requester, asked

    def _take_over(self, member: int, name: Name, asked: Asked) -> None:
        """A further request for what is to be repaired: a pending timer answers it in place of a narrower one."""
        timer = self._pending(member, "repair", name)
        if timer is None or timer.asked is None or timer.asked.requester == member or timer.asked.width is None:
            return
        if asked.width is None or asked.width > timer.asked.width:
            timer.asked = asked

    def _hear_repair(self, step: Step, name: Name, packet: Packet) -> None:
        """A repair is heard: it ends a timer for a request that it serves, and may begin a second step."""
        member, timer = step.row.member, self._pending(step.row.member, "repair", name)
        before = self._rests.get((member, name))
        self._rest(step, name, packet, timer)
        if timer is not None and timer.asked is not None:
            if serves(self.given, mark_of(self.given, packet, member), member, timer.asked):
                self._stop(step, "repair", name, "stopped")
        asked = packet.asked
        if self.given.steps == 2 and packet.scope is not None and asked is not None and asked.requester == member:
            is_at_rest = before is not None and step.row.time < before.until and serves(self.given, before.mark, member, asked)
            if self._pending(member, "repair", name) is None and not is_at_rest:
                self._plan(step, name, asked)

    def _rest(self, step: Step, name: Name, packet: Packet, timer: Timer | None) -> None:
        """A member rests that sent or heard a repair; only with local recovery something depends on it."""
        member = step.row.member
        if not self.given.is_local or self.given.members[member].role == "listener":
            return
        other = name[0]
        if member == other:
            other = packet.sender if timer is None or timer.asked is None else timer.asked.requester
        until = step.row.time + 3 * (self.given.round_trip(member, other) // 2)
        self._rests[member, name] = Rest(until, mark_of(self.given, packet, member))

    def _leave(self, step: Step) -> None:
        """A member that leaves takes its losses and timers with it."""
        for loss in self._losses.pop(step.row.member, {}).values():
            loss.left = step.row.time
            self.ended.append(loss)
        for kind, name in list(self._timers.get(step.row.member, {})):
            self._stop(step, kind, name, "stopped")

    def _pending(self, member: int, kind: str, name: Name) -> Timer | None:
        return self._timers.get(member, {}).get((kind, name))

    def _start(self, step: Step, kind: str, name: Name) -> Timer:
        timer = Timer(step.row.member, kind, name, step.row.time)
        self._timers.setdefault(timer.member, {})[kind, name] = timer
        self.begun.append(timer)
        return timer

    def _stop(self, step: Step, kind: str, name: Name, how: str) -> Timer | None:
        timer = self._timers.get(step.row.member, {}).pop((kind, name), None)
        if timer is not None:
            timer.end, timer.how = step.row.time, how
            self.ended.append(timer)
        return timer
