#!/usr/bin/env python3
"""gen.py SEED: prints one random script for a bank of vending cabinets."""

import random
import sys

WORDS = ["post", "misses", "pattern", "cabinet", "plant", "want", "leave", "sweep", "bound"]
FIELDS = {"post": 1, "misses": 1, "pattern": 2, "cabinet": 2, "plant": 0,
          "want": 1, "leave": 1, "sweep": 1, "bound": 1}
BAD_NUMBERS = ["00", "007", "0000", "00000", "01", "", "a", "x1", "1x", "-1", "+1", " 1", "1 ", "1.0", "0x1", "1e1",
               "100000", "123456", "000001", "999999", "65536000000", "4294967296", "18446744073709551616", "\x00",
               "1\x00", "1\r", "\r"]
EDGE_NUMBERS = ["65535", "65536", "99999", "100000", "10000", "1000", "1001", "15", "16", "17", "59", "60", "61",
                "255", "256", "257", "271", "65551", "32768", "0", "1"]
BAD_LETTERS = ["", "x", "K", "kdx", "k d", "k" * 17, "kdl" * 6, "l" * 20, "k\r", "k\x00", "kk,dd", "D", "1"]


class Script:
    def __init__(self, seed):
        self.r = random.Random(seed)
        self.lines = []
        self.n = 1
        self.kind = "straight"
        self.misses = 0
        self.wanted = []

    def add(self, *fields):
        self.raw("\t".join(str(f) for f in fields))

    def raw(self, text):
        self.lines.append(text if isinstance(text, bytes) else text.encode("latin-1"))

    # ---- good pieces

    def letters(self, length=None):
        r = self.r
        length = length or r.choice([1, 1, 2, 3, 4, 5, 7, 8, 11, 15, 16, 16, r.randint(1, 16)])
        style = r.randrange(7)
        if style == 0:
            return "l" * length
        if style == 1:
            return "d" * length
        if style == 2:
            return "k" * length
        if style == 3:
            return "".join(r.choices("kdl", [1, 1, 8], k=length))
        if style == 4:
            return "".join(r.choices("dl", k=length))
        if style == 5:
            return ("l" * (length - 1) + r.choice("kd"))[-length:]
        return "".join(r.choices("kdl", k=length))

    def parents(self):
        r, n = self.r, self.n
        shape = r.choice(["line", "star", "random", "random", "binary", "caterpillar"])
        if shape == "line":
            return [max(k - 1, 0) for k in range(n)]
        if shape == "star":
            return [0] * n
        if shape == "binary":
            return [max((k - 1) // 2, 0) for k in range(n)]
        if shape == "caterpillar":
            return [max(k - 1 - (k % 2), 0) for k in range(n)]
        return [0] + [r.randrange(k) for k in range(1, n)]

    def sweeps(self):
        r = self.r
        roll = r.random()
        if self.kind == "retry" and self.misses > 3 and roll < 0.4:
            return r.randint(1, 120)
        if roll < 0.85:
            return r.randint(1, 10)
        if roll < 0.97:
            return r.randint(11, 100)
        return r.choice([r.randint(100, 1000), 999, 1000])

    def setup(self):
        r = self.r
        self.kind = r.choice(["straight", "clean", "retry", "retry"])
        self.n = r.choice([1, 2, 2, 3, 3, 4, 5, 8, 15, 16, 16, r.randint(1, 16), r.randint(1, 16), r.randint(1, 16)])
        self.add("post", self.kind)
        tree = [("cabinet", k, p) for k, p in enumerate(self.parents())]
        wires = []
        if self.kind == "retry":
            if r.random() < 0.9:
                self.misses = r.choice([0, 1, 1, 2, 2, 3, 4, 15, r.randint(0, 15)])
                if r.random() < 0.2:
                    wires.append(("misses", r.randint(0, 15)))
                wires.append(("misses", self.misses))
            share = r.choice([0, 0.3, 0.8, 1])
            used = [w for w in range(4 * (self.n - 1)) if r.random() < share]
            r.shuffle(used)
            wires += [("pattern", w, self.letters()) for w in used]
            for _ in range(r.randrange(4)):
                wires.append(("pattern", r.randrange(60), self.letters()))
        order = r.randrange(3)
        if order == 0:
            both = tree + wires
        elif order == 1:
            both = wires + tree
        else:
            both = []
            while tree or wires:
                pick = r.random() * (len(tree) + len(wires)) < len(tree)
                both.append((tree if pick else wires).pop(0))
        for fields in both:
            self.noise()
            self.add(*fields)
        self.noise()
        if r.random() < 0.97:
            self.add("plant")

    def want(self):
        r = self.r
        resting = [k for k in range(self.n) if k not in self.wanted]
        k = r.choice(resting) if resting and r.random() < 0.85 else r.randrange(self.n)
        if k not in self.wanted:
            self.wanted.append(k)
        self.add("want", k)

    def leave(self):
        r = self.r
        if self.wanted and r.random() < 0.9:
            k = r.choice(self.wanted)
            if r.random() < 0.4:
                self.wanted.remove(k)
        else:
            k = r.randrange(self.n)
        self.add("leave", k)

    def leave_all(self):
        """One of those that want may be in, so everyone is asked to leave; the others are refused."""
        r = self.r
        order = list(self.wanted)
        r.shuffle(order)
        for k in order[:r.randint(1, 16)]:
            self.add("leave", k)
        if r.random() < 0.5 and order:
            self.wanted.remove(order[0])

    def play(self, until):
        r = self.r
        weights = r.choice([[4, 3, 5, 1, 1], [2, 4, 6, 2, 0.3], [6, 1, 3, 0.5, 0.3], [3, 2, 3, 3, 1]])
        while len(self.lines) < until:
            self.noise()
            what = r.choices(["want", "leave", "sweep", "leave all", "bound"], weights)[0]
            if what == "want":
                for _ in range(r.choice([1, 1, 1, 2, self.n])):
                    self.want()
            elif what == "leave":
                self.leave()
            elif what == "sweep":
                self.add("sweep", self.sweeps())
            elif what == "leave all":
                self.leave_all()
            else:
                self.add("bound", r.choice([0, 1, r.randint(0, 100), r.randint(0, 65535), 65535, 65536]))

    # ---- bad pieces

    def any_number(self):
        r = self.r
        return r.choice([str(r.randint(0, 16)), str(r.randint(0, 70)), str(r.randint(0, 99999)),
                         r.choice(EDGE_NUMBERS), r.choice(BAD_NUMBERS)])

    def any_line(self):
        """A line of a known word with fields that may or may not fit."""
        r = self.r
        word = r.choice(WORDS)
        if word == "post":
            return [word, r.choice(["straight", "clean", "retry", "retry", "Retry", "", "retry ", "bad", "7"])]
        if word == "pattern":
            return [word, r.choice([str(r.randrange(60)), self.any_number()]),
                    r.choice([self.letters(), self.letters(), r.choice(BAD_LETTERS)])]
        return [word] + [self.any_number() for _ in range(FIELDS[word])]

    def bad_word(self):
        r = self.r
        word = r.choice(WORDS)
        self.add(r.choice([word + "s", word[:-1], word.upper(), " " + word, word + " ", "", "frobnicate", "0",
                           word + "\r", word + "\x00", "\x00" + word, word + "\xff", "no", "state", "waiter", "take",
                           word + "," + "0"]),
                 *[self.any_number() for _ in range(r.randrange(4))])

    def bad_count(self):
        r = self.r
        word = r.choice(WORDS)
        count = r.choice([c for c in range(7) if c != FIELDS[word]])
        self.add(word, *[self.any_number() for _ in range(count)])

    def bad_number(self):
        r = self.r
        word = r.choice([w for w in WORDS if FIELDS[w] and w != "post"])
        if word == "pattern":
            self.add(word, *r.choice([(r.choice(BAD_NUMBERS), self.letters()), (r.choice(BAD_NUMBERS), "x"),
                                      (r.randrange(60), r.choice(BAD_LETTERS)), ("60", r.choice(BAD_LETTERS))]))
        elif word == "cabinet":
            good, bad = str(r.randint(0, 17)), r.choice(BAD_NUMBERS)
            self.add(word, *r.choice([(good, bad), (bad, good), (bad, bad)]))
        else:
            self.add(word, r.choice(BAD_NUMBERS))

    def edge_number(self):
        r = self.r
        word = r.choice([w for w in WORDS if FIELDS[w] and w != "post"])
        if word == "pattern":
            self.add(word, r.choice(EDGE_NUMBERS), self.letters())
        else:
            self.add(word, *[r.choice(EDGE_NUMBERS) for _ in range(FIELDS[word])])

    def bad_order(self):
        r = self.r
        k = r.randint(0, 16)
        self.add(*r.choice([
            ("post", r.choice(["straight", "clean", "retry", "", "bad"])),
            ("misses", r.choice([0, 3, 15, 16, 99999])),
            ("pattern", r.choice([0, 7, 59, 60, 99999]), self.letters()),
            ("cabinet", k, r.randint(0, k)), ("cabinet", k, k), ("cabinet", k, k + 1), ("cabinet", 0, 1),
            ("cabinet", 0, 0), ("cabinet", 1, 0), ("cabinet", 16, 0), ("cabinet", 16, 20), ("cabinet", 99999, 99999),
            ("cabinet", 15, 15), ("cabinet", k, 65535), ("cabinet", k, 65536),
            ("plant",), ("want", r.choice([self.n, self.n + 1, 15, 16, 99, 65536, 99999])),
            ("leave", r.choice([self.n, self.n + 1, 15, 16, 99, 65536, 99999])),
            ("sweep", r.choice([0, 1001, 65535, 65536, 99999])), ("bound", r.choice([65535, 65536, 99999])),
        ]))

    def blank(self):
        self.raw(self.r.choice(["", "", "\t", "\t\t", "\tplant", "\twant\t0", " ", "\r", "\x00", "\xc3\xa4", "\xff\xfe"]))

    def odd_length(self):
        r = self.r
        size = r.choice([79, 80, 80, 81, 81, 82, 160, 161, 162, 243, 500, 500])
        if r.random() < 0.02:
            size = r.choice([8191, 8192, 8193, 20000, 70000])
        start = r.choice(["", "want\t", "want\t0\t", "plant\t", "sweep\t1", "pattern\t0\t", "plant", "post\t", "bound\t",
                          "cabinet\t0\t0", "\t"])
        fill = r.choice(["0", "k", "\t", " ", "\x00", "\r", "\xe4", "x", "9"])
        self.raw((start + fill * size)[:size])

    def mutated(self):
        r = self.r
        if r.random() < 0.5 and self.lines:
            line = bytearray(r.choice(self.lines)[:90])
        else:
            line = bytearray("\t".join(self.any_line()).encode("latin-1"))
        for _ in range(r.choice([1, 1, 1, 2, 3])):
            byte = r.choice([0, 9, 9, 13, 32, 48, 49, 107, 127, 128, 255, 11, 12, r.randrange(256)])
            byte = 0 if byte == 10 else byte
            at = r.choice([0, len(line), r.randint(0, len(line))])
            how = r.randrange(3)
            if how == 0:
                line.insert(at, byte)
            elif line and how == 1:
                line[min(at, len(line) - 1)] = byte
            elif line:
                del line[min(at, len(line) - 1)]
        self.raw(bytes(line))

    def garbage(self):
        r = self.r
        self.raw(bytes(b for b in r.randbytes(r.choice([1, 3, 10, 79, 80, 81, 120])) if b != 10))

    def bad(self):
        self.r.choices([self.bad_word, self.bad_count, self.bad_number, self.edge_number, self.bad_order, self.blank,
                        self.odd_length, self.mutated, self.garbage, lambda: self.add(*self.any_line())],
                       [2, 3, 3, 3, 5, 1, 2, 4, 0.5, 4])[0]()

    def noise(self):
        while self.r.random() < self.noisy:
            self.bad()

    # ---- whole scripts

    def make(self):
        r = self.r
        self.noisy = r.choice([0, 0.02, 0.02, 0.1, 0.1, 0.3, 0.6])
        until = r.choice([r.randint(20, 60), r.randint(20, 150), r.randint(100, 300)])
        style = r.random()
        if style < 0.04:
            while len(self.lines) < until:
                self.bad()
        elif style < 0.08:
            while len(self.lines) < until // 4:
                self.bad()
            self.setup()
            self.play(until)
        else:
            if r.random() < 0.1:
                self.bad_order()
            self.setup()
            self.play(until)
        end = b"" if r.random() < 0.25 else b"\n"
        if not end and r.random() < 0.3:
            self.odd_length()
        return b"\n".join(self.lines) + end


sys.stdout.buffer.write(Script(int(sys.argv[1])).make())
