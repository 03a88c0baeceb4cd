#!/usr/bin/env python3
"""Prints what the demo wall prints, written from docs/ alone, to compare with crates/demo_wall/stdout.

It reads nothing. Two walls of cabinets are shown, each for 150 rounds: docs/DEMO_WALL.md says what happens in a round and what
is printed of it; the other documents say how cabinets, posts and wires behave.
"""

MOST_CABINETS = 16
LANES = 30
WIRES = 60
LANE_PLACES = 4  # messages that may wait on one lane
WIRE_DEPTH = 8  # frames that may fly on one patterned wire
MOST_SWEEPS = 65_535  # the largest S that bound takes
LONGEST_WAIT = 4_294_967_295

# Lanes and wires are numbered by the tree alone here, so that their numbers need no check (8, 9).

REQUEST, PRIVILEGE, ANSWER = "REQUEST", "PRIVILEGE", "ANSWER"
HEADS = {REQUEST: 0x10, PRIVILEGE: 0x20, ANSWER: 0x30}  # with bit 0; bit 1 is one more


class Refusal(Exception):
    """A call was not done; the number says on which ground."""

    def __init__(self, number):
        super().__init__(number)
        self.number = number


def refuse(number, ground):
    if ground:
        raise Refusal(number)


# ---- Cabinets and their tree


class Tree:
    """The list of parents, and the lanes that follow from it."""

    def __init__(self, parents):
        refuse(12, not 1 <= len(parents) <= MOST_CABINETS)
        refuse(13, parents[0] != 0 or any(parent >= k for k, parent in enumerate(parents) if k > 0))
        self.parents = list(parents)
        self.size = len(parents)
        self.ends = []  # of each lane in use: from where, to where
        for k in range(1, self.size):
            self.ends += [(k, parents[k]), (parents[k], k)]

    def neighbours(self, cabinet):
        return {to for start, to in self.ends if start == cabinet}

    def lane(self, start, to):
        return self.ends.index((start, to))


class Cabinet:
    """One node of Raymond's method. As holder or asker, a cabinet's own number stands for "own"."""

    def __init__(self, number, parent, neighbours):
        self.number = number
        self.neighbours = neighbours
        self.holder = parent  # cabinet 0 is entered as its own parent, and so begins with the privilege
        self.inside = False
        self.asked = False
        self.queue = []

    def waits(self):
        return self.number in self.queue

    # Each event answers what the cabinet sends: (neighbour, message), in the order in which it is sent.

    def want(self):
        refuse(16, self.waits() or self.inside)
        self.queue.append(self.number)
        return self.settle()

    def leave(self):
        refuse(17, not self.inside)
        self.inside = False
        return self.settle()

    def receive(self, message, sender):
        refuse(18, sender not in self.neighbours)
        if message == REQUEST:
            refuse(19, sender in self.queue or sender == self.holder)
            self.queue.append(sender)
        else:
            refuse(20, sender != self.holder or not self.asked)
            self.holder = self.number
        return self.settle()

    def settle(self):
        # Assign comes first: a REQUEST ahead of the PRIVILEGE would reach somebody who still looks to this cabinet.
        return self.assign() + self.ask()

    def assign(self):
        if self.holder != self.number or self.inside or not self.queue:
            return []
        asker = self.queue.pop(0)
        self.asked = False
        if asker == self.number:
            self.inside = True
            return []
        self.holder = asker
        return [(asker, PRIVILEGE)]

    def ask(self):
        if self.holder == self.number or not self.queue or self.asked:
            return []
        self.asked = True
        return [(self.holder, REQUEST)]


# ---- Frames and wires


def write_frame(kind, bit, lane):
    head = HEADS[kind] + bit
    return bytes([head, lane, 255 - (head + lane) % 256])


def read_frame(frame):
    refuse(23, len(frame) != 3)
    head, lane, check = frame
    known = {zero + bit: (kind, bit) for kind, zero in HEADS.items() for bit in (0, 1)}
    refuse(24, head not in known)
    refuse(25, lane >= LANES)
    refuse(26, check != 255 - (head + lane) % 256)
    kind, bit = known[head]
    return kind, bit, lane


class Wire:
    """One patterned wire: its letters say in turn what becomes of each frame that is sent."""

    def __init__(self, letters):
        self.letters = letters
        self.place = 0
        self.losses = 0  # in a row
        self.flying = []

    def send(self, frame, misses):
        room = WIRE_DEPTH - len(self.flying)
        refuse(22, room == 0)
        letter = self.letters[self.place]
        self.place = (self.place + 1) % len(self.letters)  # used up, even where it counts as another
        if letter == "l" and self.losses < misses:
            self.losses += 1
            return
        self.losses = 0
        self.flying += [frame] * (2 if letter == "d" and room > 1 else 1)

    def take(self):
        return self.flying.pop(0)


class Patterned:
    """Sixty patterned wires, none of which loses more than a given number of frames in a row."""

    def __init__(self, misses, letters_of):
        self.misses = misses
        self.wires = [Wire(letters_of(wire)) for wire in range(WIRES)]

    def send(self, wire, frame):
        self.wires[wire].send(frame, self.misses)

    def drain(self, wire):
        """Takes until the wire is empty."""
        taken = []
        while self.wires[wire].flying:
            taken.append(self.wires[wire].take())
        return taken


# ---- Posts: both are a lane many times over, and a patience


class StraightLane:
    """A lane that gives its oldest message on each pull."""

    def __init__(self):
        self.row = []

    def waiting(self):
        return self.row

    def put(self, message):
        self.row.append(message)

    def pull(self):
        return self.row.pop(0) if self.row else None


class RetryLane:
    """Both ends of one lane that repeats messages over bad wires by the alternating bit."""

    def __init__(self, lane, wiring):
        self.lane = lane
        self.wiring = wiring
        self.frames, self.answers = 2 * lane, 2 * lane + 1  # the two wires
        self.outstanding = None
        self.row = []
        self.sending = 0
        self.expected = 0

    def waiting(self):
        # What is delivered but not yet answered is still outstanding, and waits no more: counted, it would be there twice.
        delivered = self.sending != self.expected
        return ([] if self.outstanding is None or delivered else [self.outstanding]) + self.row

    def put(self, message):
        if self.outstanding is None:
            self.outstanding = message
        else:
            self.row.append(message)

    def pull(self):
        if self.outstanding is None:
            return None
        self.wiring.drain(self.frames)
        self.wiring.drain(self.answers)
        self.send(self.frames, self.outstanding, self.sending)
        accepted = self.receive()
        self.take_answers()
        return accepted

    def send(self, wire, kind, bit):
        self.wiring.send(wire, write_frame(kind, bit, self.lane))

    def receive(self):
        accepted = answer = None
        for message, bit in self.arrivals(self.frames, (REQUEST, PRIVILEGE)):
            answer = bit
            if bit == self.expected:
                accepted = message
                self.expected = 1 - self.expected
        # Repeats are answered as well as what is new, or a lost answer would never be made good.
        if answer is not None:
            self.send(self.answers, ANSWER, answer)
        return accepted

    def take_answers(self):
        for _, bit in self.arrivals(self.answers, (ANSWER,)):
            # A second copy meets the turned bit, and so does nothing.
            if self.outstanding is not None and bit == self.sending:
                self.sending = 1 - self.sending
                self.outstanding = self.row.pop(0) if self.row else None

    def arrivals(self, wire, kinds):
        """Kind and bit of each frame on the wire that reads, is for this lane and of these kinds."""
        came = []
        for frame in self.wiring.drain(wire):
            try:
                kind, bit, lane = read_frame(frame)
            except Refusal:
                continue
            if lane == self.lane and kind in kinds:
                came.append((kind, bit))
        return came


class Post:
    def __init__(self, lanes, patience):
        self.lanes = lanes
        self.patience = patience

    def waiting(self, lane):
        return self.lanes[lane].waiting()

    def put(self, lane, message):
        refuse(21, len(self.waiting(lane)) == LANE_PLACES)
        self.lanes[lane].put(message)

    def pull(self, lane):
        return self.lanes[lane].pull()


class Straight(Post):
    def __init__(self):
        super().__init__([StraightLane() for _ in range(LANES)], 0)


class Retry(Post):
    def __init__(self, wiring):
        misses = wiring.misses
        super().__init__([RetryLane(lane, wiring) for lane in range(LANES)], misses * misses + 3 * misses + 1)


# ---- The bank


class Bank:
    """The cabinets that share one terminal, and the post between them."""

    def __init__(self, post):
        self.post = post
        self.tree = None
        self.cabinets = []
        self.waits = []  # the wait count of each cabinet

    def plant(self, parents):
        refuse(11, self.tree is not None)
        tree = Tree(parents)
        refuse(14, any(self.post.waiting(lane) for lane in range(LANES)))
        self.tree = tree
        self.cabinets = [Cabinet(k, parent, tree.neighbours(k)) for k, parent in enumerate(parents)]
        self.waits = [0] * tree.size

    def want(self, number):
        cabinet = self.cabinet(number)
        sent = cabinet.want()
        self.waits[number] = 0
        self.put_all(number, sent)
        return "in" if cabinet.inside else "waits"

    def leave(self, number):
        self.put_all(number, self.cabinet(number).leave())

    def sweep(self):
        """Answers the cabinet that went in last, and its wait count; or None."""
        refuse(10, self.tree is None)
        for number, cabinet in enumerate(self.cabinets):
            if cabinet.waits():
                self.waits[number] = min(self.waits[number] + 1, LONGEST_WAIT)
        entered = None
        for lane, (start, to) in enumerate(self.tree.ends):
            message = self.post.pull(lane)
            if message is not None and self.deliver(message, start, to):
                entered = to, self.waits[to]
        return entered

    def deliver(self, message, start, to):
        """Answers whether the cabinet went in."""
        cabinet = self.cabinets[to]
        before = cabinet.inside
        self.put_all(to, cabinet.receive(message, start))
        return cabinet.inside and not before

    def state(self, number):
        cabinet = self.cabinet(number)
        return "in" if cabinet.inside else "waits" if cabinet.waits() else "rest"

    def bound(self, stay):
        refuse(7, stay > MOST_SWEEPS)
        refuse(10, self.tree is None)
        return (self.tree.size - 1) * (3 * (self.post.patience + 1) + stay)

    def cabinet(self, number):
        refuse(10, self.tree is None)
        refuse(15, number >= self.tree.size)
        return self.cabinets[number]

    def put_all(self, start, sent):
        for to, message in sent:
            self.post.put(self.tree.lane(start, to), message)


# ---- Chance


class Pcg32:
    """PCG32, XSH RR 64/32."""

    MULTIPLIER = 6364136223846793005
    MASK = 2 ** 64 - 1

    def __init__(self, state, stream):
        self.increment = (2 * stream + 1) & self.MASK
        self.state = 0
        self.step()
        self.state = (self.state + state) & self.MASK
        self.step()

    def step(self):
        self.state = (self.state * self.MULTIPLIER + self.increment) & self.MASK

    def word(self):
        old = self.state
        self.step()
        mixed = (((old >> 18) ^ old) >> 27) & 0xFFFF_FFFF
        places = old >> 59
        return (mixed >> places | mixed << (32 - places)) & 0xFFFF_FFFF

    def stay(self):
        """From 0 to 3."""
        return self.word() >> 30

    def one_in_eight(self):
        self.word()  # the lower half of a number of 64 bits, of which only the top decides
        return self.word() >> 29 == 0


# ---- The show


class Show:
    """Buyers come to one wall, pay and leave, and each thing that happens is printed."""

    ROUNDS = 150
    LONGEST_STAY = 4  # in sweeps: a stay drawn as 3 meets four of them before the visit on which the buyer leaves

    def __init__(self, title, parents, post):
        self.title = title
        self.parents = parents
        self.bank = Bank(post)
        self.chance = Pcg32(1989, 1969)
        self.stays = [0] * len(parents)  # what is left of the stay of each cabinet's buyer, counted in visits
        self.longest = 0

    def run(self):
        print(self.title)
        self.attempt(self.plant)
        for _ in range(self.ROUNDS):
            for number in range(len(self.parents)):
                self.attempt(self.visit, number)
            self.attempt(self.sweep)
        self.attempt(self.finish)

    def attempt(self, act, *values):
        try:
            act(*values)
        except Refusal as refusal:
            print(f"no {refusal.number}")

    def plant(self):
        self.bank.plant(self.parents)
        print(f"plant {len(self.parents)}")

    def visit(self, number):
        state = self.bank.state(number)
        if state == "rest" and self.chance.one_in_eight():
            self.want(number)
        elif state == "in" and self.stays[number] == 0:
            self.bank.leave(number)
            print(f"leave {number}")
        elif state == "in":
            self.stays[number] -= 1

    def want(self, number):
        answer = self.bank.want(number)
        print(f"want {number}: {answer}")
        if answer == "in":
            self.goes_in(number, 0)

    def sweep(self):
        entered = self.bank.sweep()
        if entered is None:
            print("sweep: -")
        else:
            number, wait = entered
            print(f"sweep: {number} goes in after {wait}")
            self.goes_in(number, wait)

    def goes_in(self, number, wait):
        self.stays[number] = self.chance.stay()
        self.longest = max(self.longest, wait)

    def finish(self):
        limit = self.bank.bound(self.LONGEST_STAY)
        print(f"longest wait {self.longest}, limit {limit}")


def bad_letters(wire):
    return ("lkd", "llk", "lllkdlk")[wire % 3]


def main():
    Show("three cabinets in a line, over the straight post", [0, 0, 1], Straight()).run()
    Show(
        "seven cabinets on two floors, over a retry post on bad wires",
        [0, 0, 0, 1, 3, 3, 5],
        Retry(Patterned(3, bad_letters)),
    ).run()


if __name__ == "__main__":
    main()
