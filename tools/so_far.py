"""What a transcript says of each link and core up to a line of it: the look of `tools/explain --at`.

The rules are those of docs/LINKS.md and docs/LIFECYCLE.md: a lane hands its messages over in order; a close leaves calls and
buffers as they are; a crash takes the calls and buffers of the remote callers; a recovery takes those of the host actor, caller
0, and begins with empty lanes, without endpoints and channels; a shutdown leaves no link.
"""
from dataclasses import dataclass, field

# The ends of a call, and how each lane is named. A host caller takes from lane 0, a remote caller from lane 1.
ENDS = ("sent took gave bound unbound busy dead no-buffer book-full empty address-taken endpoints-full not-bound").split()
LANES = ("to the host", "to the remote")
# The events that change nothing here, with how many words may follow the keyword.
OF_NAME = {"exists": (0,), "no-link": (0,), "callers-full": (0,), "no-caller": (1,), "still-open": (1,), "incarnations-spent": (0,),
           "region": (1,), "not-offline": (0,), "driver": (2,), "driver-taken": (1,), "drivers-full": (0,), "missing": (1,),
           "too-large": (1,), "fault": (1, 2), "recovery": (1,), "not-running": (0,), "not-loaded": (0,), "entry": range(4, 9),
           "vring": (5,), "trace": (2,), "no-trace": (1,), "mem": (2,), "unmapped": (2,), "not-crashed": (0,),
           "dump-too-large": (1,), "dumps-full": (0,), "ring": (2,), "dump": (2,), "worker": (2,), "stopped": (0,),
           "already": (0, 2)}
OF_CALLER = {"in-call": (0,), "no-call": (0,), "not-held": (1,), "too-long": (1,), "wrong-side": (0,)}
# Lines that are about no link or core.
OF_RUN = ("unknown", "objects-full", "image", "image-exists", "read", "store", "step", "refused")


def steps(count):
    return f"{count} step" if count == 1 else f"{count} steps"


@dataclass
class Call:
    """A call that was begun: its steps that are done, and the lines of its beginning and of the last one."""
    begun: int
    done: int = 0
    at: int = 0


@dataclass
class Caller:
    end: str
    line: int
    call: Call = None
    # The messages whose buffers it holds, and the line of each take.
    held: dict = field(default_factory=dict)
    # A line that says that it has a turn, where its call isn't told otherwise.
    turn: int = 0

    def is_busy(self):
        return bool(self.call or self.turn or self.held)

    def told(self, lane):
        """What it is about, a line each."""
        made = []
        if self.call:
            since = f"line {self.call.at}, begun at line {self.call.begun}" if self.call.at else f"begun at line {self.call.begun}"
            made.append(f"is in a call, {steps(self.call.done)} done ({since})")
        elif self.turn:
            made.append(f"is in the middle of a call, since it has a turn of the link (line {self.turn})")
        made += [f"holds the buffer of message {number} of lane {lane} (taken at line {line})" for number, line in self.held.items()]
        return made


@dataclass
class Lane:
    """What is known of a lane in this incarnation: at least so many messages were accepted, handed over and given back."""
    accepted: int = 0
    handed: int = 0
    returned: int = 0
    sent: dict = field(default_factory=dict)


@dataclass
class Thing:
    """A link or a core, as its lines tell it."""
    name: str
    is_core: bool
    line: int
    state: str = "open"
    inc: int = 0
    users: int = 0
    callers: dict = field(default_factory=dict)
    lanes: list = field(default_factory=lambda: [Lane(), Lane()])
    endpoints: dict = field(default_factory=dict)
    channels: dict = field(default_factory=dict)
    # What a crash or a reclaim took back, told until the next incarnation.
    taken: list = field(default_factory=list)
    # Lines of pumps and drives whose messages have no lines.
    gaps: list = field(default_factory=list)
    is_linked: bool = True

    def enter(self, state, line):
        self.state, self.line = state, line

    def begin(self):
        """Begins an incarnation: empty lanes and fresh ends."""
        self.lanes, self.endpoints, self.channels, self.taken, self.gaps = [Lane(), Lane()], {}, {}, [], []

    def caller(self, number, line):
        """The caller of this number; those of a core's actors have no line of their own."""
        if number not in self.callers:
            self.callers[number] = Caller("remote" if number == 1 else "host", line)
        return self.callers[number]

    def is_actor(self, number):
        return self.is_core and number in (0, 1)

    def drop(self, number, why):
        """Takes a caller back, with what it was about."""
        caller = self.callers.pop(number, None)
        if caller:
            self.taken += [f"caller {number} {it}: {why}" for it in caller.told(0 if caller.end == "host" else 1)]


class Run:
    """The links and cores of a run, line by line."""

    def __init__(self):
        self.things, self.bad_line, self.number = {}, 0, 0

    # Lines of a link or a core.

    def on_open(self, thing, inc):
        thing.begin()
        thing.inc = int(inc)
        thing.enter("open", self.number)

    def on_closed(self, thing, inc):
        thing.enter("closed", self.number)

    def on_offline(self, thing):
        thing.callers.clear()
        thing.begin()
        thing.users = 0
        thing.enter("offline", self.number)

    def on_detached(self, thing):
        self.on_offline(thing)
        thing.enter("detached", self.number)

    def start(self, thing, state, inc):
        """A boot, an attach, or a recovery, which keeps the host's callers but its actor."""
        if thing.state == "crashed":
            thing.callers.pop(0, None)
        else:
            thing.users = 1
        thing.begin()
        thing.inc = int(inc)
        thing.enter(state, self.number)

    def on_running(self, thing, inc):
        self.start(thing, "running", inc)

    def on_attached(self, thing, inc):
        self.start(thing, "attached", inc)

    def on_crashed(self, thing, *kind):
        for number in [it for it, caller in thing.callers.items() if caller.end == "remote"]:
            thing.drop(number, f"taken back by the crash (line {self.number})")
        thing.enter("crashed", self.number)

    def on_state(self, thing, state, _users, users, _incarnation, inc):
        thing.state, thing.users, thing.inc = state, int(users), int(inc)

    def on_users(self, thing, users):
        thing.users = int(users)

    def on_caller(self, thing, number, end):
        thing.callers[int(number)] = Caller(end, self.number)

    def on_reclaimed(self, thing, number):
        thing.drop(int(number), f"reclaimed (line {self.number})")

    def on_busy(self, thing, holder):
        self.has_turn(thing, holder)

    def on_still_turn(self, thing, caller):
        self.has_turn(thing, caller)

    def on_still_held(self, thing, *_held):
        # Of a core it is the answer to a recovery, which takes the host actor's call back first.
        if thing.is_core:
            thing.drop(0, f"taken back by a recovery that was refused (line {self.number})")

    def on_lane(self, thing, lane, _accepted, accepted, _handed, handed, _returned, returned):
        it = thing.lanes[int(lane)]
        it.accepted, it.handed, it.returned = int(accepted), int(handed), int(returned)
        it.sent = {number: told for number, told in it.sent.items() if number >= it.handed}

    def on_channel(self, thing, channel, address, endpoint):
        thing.channels[channel, address] = (endpoint, self.number)

    def on_pumped(self, thing, turns):
        if turns != "0":
            thing.gaps.append(f"{turns} messages went by a pump (line {self.number}), which doesn't say on which lane")

    def on_idle(self, thing):
        for number in (0, 1):
            if number in thing.callers:
                thing.callers[number].turn = 0

    def on_paused(self, thing):
        thing.gaps = [it for it in thing.gaps if "drive" not in it]
        thing.gaps.append(f"a drive paused (line {self.number}): callers 0 and 1 may be in the middle of a call")

    # Lines of a caller.

    def on_begun(self, thing, caller):
        caller.call = Call(self.number)

    def on_at(self, thing, caller, step):
        call = caller.call = caller.call or Call(self.number)
        call.done, call.at = int(step), self.number

    def on_sent(self, thing, caller, number, who):
        lane = thing.lanes[1 if caller.end == "host" else 0]
        lane.accepted = max(lane.accepted, int(number) + 1)
        if int(number) >= lane.handed:
            lane.sent[int(number)] = (who, self.number)

    def on_took(self, thing, caller, number, *rest):
        lane, number = thing.lanes[0 if caller.end == "host" else 1], int(number)
        lane.handed = max(lane.handed, number + 1)
        lane.accepted = max(lane.accepted, number + 1)
        lane.sent = {it: told for it, told in lane.sent.items() if it >= lane.handed}
        caller.held[number] = self.number
        if rest[:1] == ("ns",) and len(rest) == 4:
            self.on_service(thing, *rest[1:])

    def on_service(self, thing, what, channel, address):
        if what == "created":
            thing.channels[channel, address] = ("", self.number)
        elif what == "destroyed":
            thing.channels.pop((channel, address), None)

    def on_gave(self, thing, caller, number):
        lane = thing.lanes[0 if caller.end == "host" else 1]
        if caller.held.pop(int(number), None) is not None:
            lane.returned += 1

    def on_bound(self, thing, caller, endpoint):
        thing.endpoints[caller.end, endpoint.split(".")[0]] = (endpoint, self.number)

    def on_unbound(self, thing, caller, endpoint):
        thing.endpoints.pop((caller.end, endpoint.split(".")[0]), None)

    def has_turn(self, thing, holder):
        if int(holder) != 64:
            thing.caller(int(holder), self.number).turn = self.number

    # The walk.

    def take(self, line):
        """One line more: whether it is one of a transcript."""
        self.number += 1
        words = line.split(" ")
        if words[0] == "*":
            return len(words) > 1 and words[1] in OF_RUN
        if len(words) < 2:
            return False
        name, word, rest = words[0], words[1], words[2:]
        if name not in self.things and word in ("open", "offline"):
            self.things[name] = Thing(name, word == "offline", self.number)
        thing = self.things.get(name)
        if thing is None:
            return False
        if word.isdigit():
            return self.take_call(thing, int(word), rest)
        return self.do(OF_NAME, word, rest, lambda act: act(thing, *rest))

    def take_call(self, thing, number, rest):
        """A line of a caller."""
        if not rest:
            return False
        word, rest = rest[0], rest[1:]
        caller = thing.caller(number, self.number)
        if word in ENDS:
            caller.call, caller.turn = None, 0
        if word == "busy" and len(rest) == 1 and rest[0].isdigit():
            self.has_turn(thing, rest[0])
            return True
        if word == "sent":
            rest = [*rest, number]
        if word in ENDS and not hasattr(self, f"on_{word}"):
            return True
        return self.do(OF_CALLER, word, rest, lambda act: act(thing, caller, *rest))

    def do(self, known, word, rest, call):
        """Has the event of a keyword change what is known."""
        act = getattr(self, "on_" + word.replace("-", "_"), None)
        if act is None:
            return word in known and len(rest) in known[word]
        try:
            call(act)
        except (TypeError, ValueError, IndexError):
            return False
        return True

    # What is said of it.

    def report(self, lines):
        made = []
        for thing in self.things.values():
            made += ["", *report(thing)]
        return made or ["", "there is no link and no core yet"]

    def possible(self, entries, line):
        """The entries that this line may be of here: of those with the same line, the ones whose state the run shows."""
        words = line.split()
        thing = self.things.get(words[0]) if words else None
        if thing is None:
            return entries
        shown = states(thing, int(words[-1]) if words[-1].isdigit() else None)
        kept = [it for it in entries if not it.state or shown.issuperset(it.state)]
        lines = {form for it in kept for form in it.lines}
        return kept + [it for it in entries if it not in kept and not lines.intersection(it.lines)]


def states(thing, caller):
    """The words of `state` in share/faults.txt that hold of a link or a core, and of the caller that the line names."""
    shown = {"core" if thing.is_core else "link", "actor" if caller is not None and thing.is_actor(caller) else "other", thing.state}
    if thing.state in ("running", "attached"):
        shown |= {"up", "open", "users"}
    elif thing.state == "crashed":
        shown |= {"closed", "users"}
    elif thing.state in ("offline", "detached"):
        shown.add("down")
    return shown


def head(thing):
    kind = "core" if thing.is_core else "link"
    life = f", incarnation {thing.inc}" if thing.inc else ""
    users = f", {thing.users} user{'s' if thing.users != 1 else ''}" if thing.users else ""
    return f"{thing.name}: {kind}, {thing.state} (line {thing.line}){life}{users}"


def lane_lines(thing, number):
    """The counts of a lane, and its messages that were not taken."""
    lane, closed = thing.lanes[number], "crashed" if thing.is_core else "closed"
    if not (lane.accepted or lane.handed):
        return [f"  lane {number}, {LANES[number]}: nothing was sent"]
    is_least = thing.gaps or any(it.turn or it.call and it.call.done > 4 for it in thing.callers.values())
    least = "at least " if is_least else ""
    made = [f"  lane {number}, {LANES[number]}: {least}{lane.accepted} accepted, {lane.handed} handed over, {lane.returned} given back"]
    after = "not taken, and no longer handed over" if thing.state == closed else "not taken"
    made += [f"    message {it}, sent by caller {who} (line {line}): {after}" for it, (who, line) in lane.sent.items()]
    unseen = [it for it in range(lane.handed, min(lane.accepted, lane.handed + 1000)) if it not in lane.sent]
    if unseen:
        made.append(f"    {len(unseen)} more, of which no line tells the sending: {after}")
    return made


def report(thing):
    """What is known of a link or a core."""
    made = [head(thing)]
    if thing.is_core and thing.state in ("offline", "detached"):
        return [*made, "  no link"]
    for number, caller in sorted(thing.callers.items()):
        actor = ("host actor", "worker")[number] if thing.is_actor(number) else f"line {caller.line}"
        if caller.is_busy() or not thing.is_actor(number):
            made.append(f"  caller {number}, {caller.end} ({actor})")
            made += [f"    {it}" for it in caller.told(0 if caller.end == "host" else 1)]
    made += [f"  {it}" for it in thing.taken]
    made += lane_lines(thing, 0) + lane_lines(thing, 1)
    made += [f"  endpoint {endpoint} at the {end} (line {line})" for (end, _), (endpoint, line) in sorted(thing.endpoints.items())]
    for (channel, address), (endpoint, line) in thing.channels.items():
        bound = f", endpoint {endpoint}" if endpoint not in ("", "-") else ""
        made.append(f"  channel {channel} at {address}{bound} (line {line})")
    return made + [f"  {it}" for it in thing.gaps]


def so_far(lines):
    """The run after these lines, or up to the first that is none of a transcript."""
    run = Run()
    for number, line in enumerate(lines, 1):
        if not run.take(line):
            run.bad_line = number
            break
    return run
