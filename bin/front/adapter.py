"""The adapter, from the listing of an image: what a picture shows of a run, and why an action isn't possible.

What can happen is told in docs/formats.md; the program alone says what does. Nothing else of this folder reads a listing.
"""
from collections import deque, namedtuple

SLOT = 64
COUNTERS = 65_536  # the number of the first counter of messages
NAMES = "noop write read cas add send wait enable".split()
NOOP, WRITE, READ, CAS, ADD, SEND, WAIT, ENABLE = range(8)
LOCAL_WRITE, REMOTE_READ, REMOTE_WRITE, ATOMIC = 1, 2, 4, 8
HIDDEN = ("code", "control")
# The sizes of a request's fields in a slot, in the order of a listing, and where each begins.
SIZES = (2, 6, 4, 4, 8, 8, 8, 8, 8, 8)
BEGINS = [sum(SIZES[:k]) for k in range(len(SIZES))]

Region = namedtuple("Region", "domain kind rights base length")
Request = namedtuple("Request", "op id lkey rkey local remote length first second flags")


def request_in(slot):
    return Request(*(int.from_bytes(slot[at : at + size], "big") for at, size in zip(BEGINS, SIZES)))


def name_of(op):
    return NAMES[op] if op < len(NAMES) else f"?{op}"


class Flight:
    """A request in flight. Its flags tell whether its completion is counted."""

    def __init__(self, index, request):
        self.index, self.request, self.landed = index, request, False


class Queue:
    def __init__(self, domain, order, base, slots, limit):
        self.domain, self.managed = int(domain), order == "managed"
        self.base, self.slots, self.limit = int(base), int(slots), int(limit)
        self.head, self.counter, self.stopped, self.held, self.flights = 0, 0, False, {}, deque()

    def window(self):
        return self.head, max(self.head, min(self.limit, self.head + self.slots))


class Image:
    """What a listing tells: memory, regions by key, queues, and where messages are put."""

    def __init__(self, lines):
        self.memory, self.regions, self.queues, self.receives = bytearray(), {}, [], []
        for line in lines:
            verb, *words = line.split(" ")
            if verb == "memory":
                self.memory = bytearray(int(words[0]))
            elif verb == "region":
                key, domain, kind, _, rights, base, length = words
                self.regions[int(key)] = Region(int(domain), kind, int(rights), int(base), int(length))
            elif verb == "queue":
                self.queues.append(Queue(*words[1:]))
            elif verb == "receive":
                self.receives.append(int(words[1]))
            elif verb == "slot":
                self.put_slot(int(words[0]), int(words[1]), words[2:])
            elif verb == "data":
                at = int(words[0])
                self.memory[at : at + 8] = bytes.fromhex(words[1])

    def put_slot(self, queue, slot, words):
        op = int(words[0][1:]) if words[0].startswith("?") else NAMES.index(words[0])
        at = self.queues[queue].base + SLOT * slot
        fields = (op, *map(int, words[1:]))
        self.memory[at : at + SLOT] = b"".join(value.to_bytes(size, "big") for value, size in zip(fields, SIZES))


class Step:
    """What one action did: whether it shows an event, which slots it rewrote, and whether its copy was old."""

    def __init__(self, verb, number, index=None, op=None):
        self.verb, self.number, self.index, self.op = verb, number, index, op
        self.shows, self.rewrote, self.old, self.event = False, [], False, ""


class Run:
    """The adapter, with what each action did so far. `make` takes actions that are possible, and `why_not` tells why one isn't."""

    def __init__(self, image, messages):
        self.memory, self.regions, self.queues, self.receives = image.memory, image.regions, image.queues, image.receives
        self.messages, self.received, self.at_first = messages, [0] * len(image.receives), bytes(image.memory)
        self.steps, self.windows = [], [[(0, *queue.window())] for queue in self.queues]
        self.slot_at = {}
        for number, queue in enumerate(self.queues):
            for slot in range(queue.slots):
                self.slot_at.setdefault(queue.base // SLOT + slot, []).append((number, slot))

    def slot(self, queue, index):
        at = queue.base + SLOT * (index % queue.slots)
        return bytes(self.memory[at : at + SLOT])

    def make(self, line):
        verb, *numbers = line.split(" ")
        number, *index = map(int, numbers)
        actions = {"d": self.deliver, "f": self.fetch, "s": self.start, "l": self.land, "c": self.complete}
        step = actions[verb](number, *index)
        self.steps.append(step)
        if verb == "s":
            for changed in {number, number if step.raised is None else step.raised}:
                self.windows[changed].append((len(self.steps), *self.queues[changed].window()))

    def put(self, step, at, data):
        """Puts bytes in memory; the slots that they change are rewritten."""
        for place in range(at // SLOT, (at + len(data) - 1) // SLOT + 1):
            low, high = max(at, SLOT * place), min(at + len(data), SLOT * (place + 1))
            if self.memory[low:high] != data[low - at : high - at]:
                step.rewrote += self.slot_at.get(place, [])
        self.memory[at : at + len(data)] = data

    def deliver(self, chain):
        step = Step("d", chain)
        if self.messages[chain]:  # a message may be empty
            self.put(step, self.receives[chain], self.messages[chain])
        self.received[chain] += 1
        return step

    def fetch(self, number, index):
        queue = self.queues[number]
        queue.held[index] = self.slot(queue, index)
        return Step("f", number, index, request_in(queue.held[index]).op)

    def count_of(self, domain, counter):
        """What a counter tells that this chain may wait for, or None."""
        if counter >= COUNTERS:
            return self.received[domain] if counter - COUNTERS == domain else None
        if counter < len(self.queues) and self.queues[counter].domain == domain:
            return self.queues[counter].counter
        return None

    def start(self, number):
        queue = self.queues[number]
        index = queue.head
        copy = queue.held.pop(index)
        request = request_in(copy)
        step = Step("s", number, index, request.op)
        step.old, step.raised = copy != self.slot(queue, index), None
        queue.head += 1
        if request.op <= SEND:
            queue.flights.append(Flight(index, request))
            refused = False
        elif request.op == WAIT:
            refused = self.count_of(queue.domain, request.first) is None
        elif request.op == ENABLE:
            refused = not self.raise_limit(queue.domain, request, step)
        else:
            refused = True  # it is undefined
        step.shows, queue.stopped = step.old or refused, refused
        return step

    def raise_limit(self, domain, request, step):
        if request.first < len(self.queues):
            other = self.queues[request.first]
            if other.managed and other.domain == domain:
                other.limit, step.raised = max(other.limit, request.second), request.first
                return True
        return False

    def complete(self, number):
        flight = self.queues[number].flights.popleft()
        self.queues[number].counter += flight.request.flags % 2
        return Step("c", number, flight.index, flight.request.op)

    def side(self, domain, key, offset, length, right):
        """The place and the kind of an access, or None where it isn't allowed."""
        row = self.regions.get(key)
        if row is None or row.domain != domain or not 0 < length <= 1_048_576 or offset + length > row.length:
            return None
        if right == ATOMIC and offset % 8 != 0 or row.rights & right != right:
            return None
        return row.base + offset, row.kind

    def land(self, number, index):
        queue = self.queues[number]
        flight = next(it for it in queue.flights if it.index == index and not it.landed)
        request, flight.landed = flight.request, True
        step = Step("l", number, index, request.op)
        if request.op == NOOP:
            return step
        length = 8 if request.op in (CAS, ADD) else request.length
        rights = {WRITE: (0, REMOTE_WRITE), READ: (LOCAL_WRITE, REMOTE_READ), SEND: (0, 0)}.get(request.op, (LOCAL_WRITE, ATOMIC))
        local = self.side(queue.domain, request.lkey, request.local, length, rights[0])
        remote = local if request.op == SEND else self.side(queue.domain, request.rkey, request.remote, length, rights[1])
        step.shows = local is None or remote is None or request.op == SEND or self.is_shown(request.op, local[1], remote[1])
        queue.stopped = local is None or remote is None
        if not queue.stopped and request.op != SEND:
            self.move(step, request, local[0], remote[0], length)
        return step

    def is_shown(self, op, local, remote):
        """Whether a request that is allowed shows an event, by the kinds of its sides."""
        if op == WRITE:
            return local == "table" or remote not in HIDDEN
        if op == READ:
            return remote == "table" or local not in HIDDEN
        return local not in HIDDEN or remote not in HIDDEN

    def move(self, step, request, local, remote, length):
        if request.op == WRITE:
            return self.put(step, remote, bytes(self.memory[local : local + length]))
        old = bytes(self.memory[remote : remote + length])
        word = int.from_bytes(old, "big")
        if request.op == ADD:
            self.put(step, remote, ((word + request.first) % 2**64).to_bytes(8, "big"))
        if request.op == CAS and word == request.first:
            self.put(step, remote, request.second.to_bytes(8, "big"))
        self.put(step, local, old)

    def why_not(self, line):
        """Which condition of the action of a schedule's line fails, or None."""
        verb, *numbers = line.split(" ")
        number, *index = map(int, numbers)
        if verb == "d":
            return self.why_no_message(number)
        if number >= len(self.queues):
            return f"there is no queue {number}; the image has {len(self.queues)}, counted from 0"
        queue = self.queues[number]
        if queue.stopped:
            return f"queue {number} has stopped, at a request that was refused or undefined"
        return {"f": why_no_fetch, "s": self.why_no_start, "l": why_no_landing, "c": why_no_completion}[verb](queue, *index)

    def why_no_message(self, chain):
        if chain >= len(self.received):
            return f"there is no chain {chain}; the image has {len(self.received)}, counted from 0"
        if self.received[chain]:
            return f"the message of chain {chain} has come already"
        return None if chain in self.messages else f"no message is given for chain {chain}: a word {chain}=HEX gives one"

    def why_no_start(self, queue):
        if queue.head not in queue.held:
            return f"its head is index {queue.head}, and no copy of that is held: it has to be fetched first"
        request = request_in(queue.held[queue.head])
        if request.op <= SEND and len(queue.flights) >= queue.slots:
            return f"{len(queue.flights)} requests are in flight, as many as it has slots: one has to complete first"
        count = self.count_of(queue.domain, request.first)
        if request.op == WAIT and count is not None and count < request.second:
            whose = f"of queue {request.first}" if request.first < COUNTERS else f"of the messages of chain {queue.domain}"
            return f"index {queue.head} is a WAIT for counter {request.first}, {whose}, to reach {request.second}; it is at {count}"
        return None


def why_no_fetch(queue, index):
    low, high = queue.window()
    if low <= index < high:
        return None
    if low == high:
        return f"nothing may be fetched: its head is index {queue.head}, and its limit is {queue.limit}"
    return f"index {index} may not be fetched now: {low} to {high - 1} may (head {queue.head}, limit {queue.limit}, {queue.slots} slots)"


def why_no_landing(queue, index):
    if any(it.index == index and not it.landed for it in queue.flights):
        return None
    flying = [str(it.index) for it in queue.flights if not it.landed]
    return f"index {index} isn't in flight, or has landed; to land are {', '.join(flying) or 'none'}"


def why_no_completion(queue):
    if not queue.flights:
        return "nothing is in flight"
    return None if queue.flights[0].landed else f"the oldest request in flight, index {queue.flights[0].index}, hasn't landed"
