#!/usr/bin/env python3
"""Writes run files for comparing two programs: valid ones, and ones with a fault.

    generate.py SEED COUNT FOLDER    writes COUNT valid and COUNT damaged files into FOLDER

The same seed gives the same files. A light model of the log and of the servers' epochs steers the steps, so that most of
them are obeyed; it answers nothing and need not be exact.
"""

import pathlib
import random
import sys

LONGEST = 32_768
SERVERS = 4
RUNS = ("get", "heads", "set", "add", "take", "join", "leave")

# Weights of the steps: begin, run, commit, abort, suspect, order, deliver, stop, start, cell, noise.
MIXES = {
    "office": (12, 30, 10, 3, 1, 10, 25, 0.5, 2, 6, 2),
    "two leaders": (14, 20, 12, 2, 4, 10, 16, 0.3, 2, 4, 2),
    "restarts": (12, 16, 10, 1, 2, 12, 25, 4, 8, 5, 2),
    "crowd": (30, 30, 2, 1, 0.3, 1, 2, 0.2, 1, 1, 2),
    "full": (10, 8, 14, 1, 14, 8, 12, 0.3, 1, 1, 1),
    "noise": (5, 5, 5, 5, 3, 5, 5, 3, 5, 5, 50),
}


def number(rng):
    """A value: mostly small, sometimes at a bound."""
    edges = (0, 1, 9, 10, 255, 256, 2**32 - 1, 2**32, 10**17, 10**18 - 1, 2**59)
    return rng.choice(edges) if rng.random() < 0.3 else rng.randrange(12)


def cell(rng):
    """A cell or a member: few, so that they collide; sometimes at a bound or past it."""
    if rng.random() < 0.04:
        return rng.choice((64, 65, 255))
    return rng.choice((0, 1, 5, 7, 8, 9, 15, 16, 62, 63))


class Steps:
    """Makes the steps of one valid file."""

    def __init__(self, rng, names, mix):
        self.rng, self.names, self.weights = rng, names, MIXES[mix]
        self.jobs = rng.sample((0, 1, 2, 7, 2**32 - 1), rng.choice((1, 2, 3))) + (list(range(10, 14)) if mix == "crowd" else [])
        self.waiting, self.log, self.in_force = [], [], 1
        self.running = dict.fromkeys(range(1, SERVERS + 1), True)
        self.epoch = dict.fromkeys(self.running, 1)
        self.delivered = dict.fromkeys(self.running, 0)
        self.open = {server: {} for server in self.running}

    def whose(self, server=None):
        """Server, name and job: usually of a transaction that is open."""
        busy = [s for s in self.running if self.open[s]]
        if busy and self.rng.random() < 0.9:
            server = server or self.rng.choice(busy)
            if self.open[server]:
                return (server, *self.rng.choice(list(self.open[server])))
        return server or self.rng.randint(1, SERVERS), self.rng.choice(self.names), self.rng.choice(self.jobs)

    def offer(self, message):
        if len(self.waiting) + len(self.log) < 128:
            self.waiting.append(message)

    def begin(self):
        leaders = [s for s in self.running if (self.epoch[s] - 1) % SERVERS + 1 == s and self.running[s]]
        anyone = not leaders or self.rng.random() < 0.08
        server = self.rng.choice(list(self.running) if anyone else leaders)
        who = self.rng.choice(self.names), self.rng.choice(self.jobs)
        if server in leaders and len(self.open[server]) < 8:
            self.open[server].setdefault(who, False)
        return f"begin {server} {who[0]} {who[1]}"

    def run(self):
        server, name, job = self.whose()
        word = self.rng.choice(RUNS)
        line = f"{word} {server} {name} {job} {cell(self.rng)}"
        if word in ("set", "add", "take"):
            line += f" {number(self.rng)}"
        elif word in ("join", "leave"):
            line += f" {cell(self.rng)}"
        return line

    def commit(self):
        server, name, job = self.whose()
        if self.open[server].get((name, job)) is False:
            self.open[server][name, job] = True
            self.offer(("transaction", self.epoch[server], server, (name, job)))
        return f"commit {server} {name} {job}"

    def abort(self):
        server, name, job = self.whose()
        if self.open[server].get((name, job)) is False:
            del self.open[server][name, job]
        return f"abort {server} {name} {job}"

    def suspect(self):
        server = self.rng.randint(1, SERVERS)
        if self.running[server]:
            self.offer(("epoch", self.epoch[server], server, None))
        return f"suspect {server}"

    def order(self):
        if self.waiting:
            kind, epoch, server, who = self.waiting.pop(0)
            accepted = kind == "epoch" and epoch == self.in_force
            self.in_force += accepted
            self.log.append((accepted, server, who))
        return "order"

    def deliver(self):
        behind = [s for s in self.running if self.running[s] and self.delivered[s] < len(self.log)]
        server = self.rng.choice(behind if behind and self.rng.random() < 0.95 else list(self.running))
        if server in behind:
            accepted, sender, who = self.log[self.delivered[server]]
            self.delivered[server] += 1
            self.epoch[server] += accepted
            if accepted:
                self.open[server].clear()
            elif sender == server:
                self.open[server].pop(who, None)
        return f"deliver {server}"

    def stop(self):
        server = self.rng.randint(1, SERVERS)
        self.running[server], self.epoch[server], self.delivered[server] = False, 1, 0
        self.open[server].clear()
        return f"stop {server}"

    def start(self):
        stopped = [s for s in self.running if not self.running[s]]
        server = self.rng.choice(stopped if stopped and self.rng.random() < 0.9 else list(self.running))
        self.running[server] = True
        return f"start {server}"

    def cell(self):
        return f"cell {self.rng.randint(1, SERVERS)} {cell(self.rng)}"

    def noise(self):
        """Any step with any server, by no model."""
        server = self.rng.choice((0, 1, 2, 3, 4, 5, 255))
        name, job = self.rng.choice(self.names), self.rng.choice(self.jobs)
        kind = self.rng.randrange(4)
        if kind == 0:
            return f"{self.rng.choice(('begin', 'commit', 'abort'))} {server} {name} {job}"
        if kind == 1:
            return f"{self.rng.choice(('set', 'add', 'take', 'join', 'leave'))} {server} {name} {job} {cell(self.rng)} {cell(self.rng)}"
        if kind == 2:
            return f"{self.rng.choice(('get', 'heads'))} {server} {name} {job} {cell(self.rng)}"
        if self.rng.random() < 0.5:
            return f"cell {server} {cell(self.rng)}"
        word = self.rng.choice(("suspect", "deliver", "start", "stop"))
        return f"{word} {server if word != 'stop' else self.rng.choice((0, 5, 255))}"

    def next(self):
        acts = (self.begin, self.run, self.commit, self.abort, self.suspect, self.order,
                self.deliver, self.stop, self.start, self.cell, self.noise)
        return self.rng.choices(acts, self.weights)[0]()


def names_of(rng):
    """One to sixteen different names, usually few."""
    count = rng.choice((1, 2, 2, 3, 3, 4, 8, 15, 16))
    names = ["ana", "ben"][:count]
    while len(names) < count:
        name = "".join(rng.choice("abcxyz") for _ in range(rng.choice((1, 2, 3, 7, 8))))
        if name not in names:
            names.append(name)
    rng.shuffle(names)
    return names


def text(names, steps):
    """The bytes of a file."""
    lines = [f"names {len(names)}", *names, f"steps {len(steps)}", *steps]
    return ("\n".join(lines) + "\n").encode()


def valid(seed, index):
    """The bytes of a valid file."""
    rng = random.Random(f"valid {seed} {index}")
    names = names_of(rng)
    maker = Steps(rng, names, rng.choice(list(MIXES)))
    count = rng.choice((0, 1, rng.randint(2, 60), rng.randint(60, 300), rng.randint(300, 999), 999))
    steps = [maker.next() for _ in range(count)]
    while len(text(names, steps)) > LONGEST:
        steps.pop()
    return text(names, steps)


def of_length(rng, length):
    """A file of that length, near the longest, that is right but for its length."""
    names = ["abcdefgh", "b"]
    step = "take 255 abcdefgh 4294967295 255 999999999999999999"
    steps, left = [], length - len(text(names, [step] * 600)) + 600 * (len(step) + 1)
    while left > 2 * (len(step) + 1):
        steps.append(step if rng.random() < 0.9 else f"take 1 b 0 0 {number(rng)}")
        left -= len(steps[-1]) + 1
    for part in (left // 2, left - left // 2):
        fronts = ("take 1 b 0 0 ", "take 1 abcdefgh 0 0 ", "take 255 abcdefgh 4294967295 255 ")
        front = next(front for front in fronts if 1 <= part - len(front) - 1 <= 18)
        steps.append(front + "9" * (part - len(front) - 1))
    file = text(names, steps)
    assert len(file) == length, (len(file), length)
    return file


def damaged(seed, index):
    """The bytes of a file with one fault, or sometimes two. A few happen to stay valid.

    The kinds of damage take turns, in an order that depends on the seed, so that 110 files have each of them.
    """
    rng = random.Random(f"damaged {seed} {index}")
    order = random.Random(f"order {seed}").sample(DAMAGES, len(DAMAGES))
    file = order[index % len(order)](rng, small(rng))
    return rng.choice(DAMAGES)(rng, file) if rng.random() < 0.15 else file


def small(rng):
    """A short valid file, so that each of its lines is often hit."""
    names = names_of(rng)
    maker = Steps(rng, names, rng.choice(list(MIXES)))
    steps = [maker.next() for _ in range(rng.choice((0, 1, 2, 5, 12, 30)))]
    for step in ("begin 1 N 1", "set 1 N 1 5 7"):
        steps.insert(rng.randint(0, len(steps)), step.replace("N", rng.choice(names)))
    return text(names, steps if rng.random() < 0.9 else [])


def over(length):
    """A damage that gives a file of that many bytes more than the longest."""
    return lambda rng, file: of_length(rng, LONGEST + length)


def on_lines(change):
    """A damage of the list of lines; the end of the file stays as it is."""
    def damage(rng, file):
        lines = file.split(b"\n")
        change(rng, lines)
        return b"\n".join(lines)
    return damage


def on_word(change):
    """A damage of one word of one line."""
    def on(rng, lines):
        place = rng.randrange(max(1, len(lines) - 1))
        words = lines[place].split(b" ")
        at = rng.randrange(len(words))
        words[at] = change(rng, words[at])
        lines[place] = b" ".join(words)
    return on_lines(on)


def on_number(change):
    """A damage of one number, where a line that is picked has one."""
    def on(rng, lines):
        places = [(i, j) for i, line in enumerate(lines) for j, word in enumerate(line.split(b" ")) if word.isdigit()]
        if places:
            i, j = rng.choice(places)
            words = lines[i].split(b" ")
            words[j] = change(rng, words[j])
            lines[i] = b" ".join(words)
    return on_lines(on)


def byte(rng, file):
    at = rng.randrange(max(1, len(file)))
    other = rng.choice((rng.randrange(256), *b" \n\r\t\0a0A-+_\xff"))
    return file[:at] + bytes([other]) + file[at + 1:]


def byte_out(rng, file):
    at = rng.randrange(max(1, len(file)))
    return file[:at] + file[at + 1:]


def byte_in(rng, file):
    at = rng.randrange(len(file) + 1)
    return file[:at] + bytes([rng.choice(b" \n\r\t\0a0Z~\x80")]) + file[at:]


def cut(rng, file):
    return file[:rng.randrange(len(file) + 1)]


def no_end(rng, file):
    return file[:-1]


def tail(rng, file):
    return file + rng.choice((b"\n", b" ", b"order\n", b"order", b"\0", b"\r\n", b"steps 0\n", b"\n\n", b"\xff"))


def drop(rng, lines):
    del lines[rng.randrange(max(1, len(lines) - 1))]


def double(rng, lines):
    at = rng.randrange(max(1, len(lines) - 1))
    lines.insert(at, lines[at])


def swap(rng, lines):
    at = rng.randrange(max(1, len(lines) - 2))
    lines[at:at + 2] = reversed(lines[at:at + 2])


def empty_line(rng, lines):
    lines.insert(rng.randrange(len(lines)), b"")


def carriage_returns(rng, file):
    return file.replace(b"\n", b"\r\n")


def upper(rng, file):
    return file.upper()


def heads_of(lines):
    """The places of the two heads, as far as they are there."""
    return [i for i, line in enumerate(lines) if line.startswith((b"names ", b"steps "))]


def count_off(rng, lines):
    heads = heads_of(lines)
    if heads:
        word, _, count = lines[rng.choice(heads)].partition(b" ")
        at = next(i for i in heads if lines[i].startswith(word))
        off = rng.choice((-1, 1)) + int(count) if count.isdigit() else 0
        lines[at] = word + b" " + str(rng.choice((off, off, 0, 1, 16, 17, 999, 1000, 10**18))).encode()


def head_other(other):
    """Another line in place of one of the heads."""
    def change(rng, lines):
        heads = heads_of(lines)
        if heads:
            lines[rng.choice(heads)] = other
    return on_lines(change)


def name_other(other):
    """Another line in place of a name; `None` for a name that is there already, often in the last place."""
    def change(rng, lines):
        heads = heads_of(lines)
        last = heads[1] if len(heads) > 1 else len(lines)
        if last > 1:
            name = lines[rng.randrange(1, last)] if other is None else other
            lines[rng.choice((last - 1, rng.randrange(1, last)))] = name
    return on_lines(change)


def name_in_step(other):
    """Another name in a step, sometimes with a second fault in the same line."""
    def change(rng, lines):
        places = [i for i, line in enumerate(lines) if len(line.split(b" ")) > 3]
        if places:
            at = rng.choice(places)
            words = lines[at].split(b" ")
            words[2] = other
            if rng.random() < 0.3:
                words[rng.choice([j for j in range(len(words)) if j != 2])] = rng.choice((b"x", b"01", b"256", b""))
            lines[at] = b" ".join(words)
    return on_lines(change)


def step_other(other):
    """Another line in place of a step; N stands for a listed name."""
    def change(rng, lines):
        heads = heads_of(lines)
        first = heads[1] + 1 if len(heads) > 1 else 0
        if first < len(lines) - 1:
            name = lines[1] if len(lines) > 1 else b"ana"
            lines[rng.randrange(first, len(lines) - 1)] = other.replace(b"N", name)
    return on_lines(change)


HEADS = (b"names", b"steps ", b"steps 1 1", b"name 1", b"Steps 0", b"names 0", b"names 1", b"names 16", b"names 17", b"steps 0", b"steps 00",
         b"steps 999", b"steps 1000", b"steps -1", b"steps  0", b"")

NAMES = (None, None, b"", b"Ana", b"abcdefghi", b"abcdefgh", b"an a", b"ana ", b" ana", b"an1", b"\xc3\xa4", b"an\r", b"steps", b"z")

STRANGERS = (b"nobody", b"q", b"abcdefgh", b"abcdefghi", b"Ana", b"", b"7", b"order")

STEPS = (
    b"begin 1 N", b"begin 1 N 4294967295", b"begin 1 N 4294967296", b"begin 256 N 1", b"begin 255 N 1", b"begin 0 N 1",
    b"begin 1 N 1 1", b"begin N 1 1", b"begin 1 1 N", b"get 1 N 1 255", b"get 1 N 1 256", b"get 1 N 1", b"get 1 N 1 1 1",
    b"heads 1 N 1 1 0", b"heads 1 N 1 64", b"set 1 N 1 1", b"set 1 N 1 1 999999999999999999", b"set 1 N 1 1 1000000000000000000",
    b"add 1 N 1 1 1 1", b"take 1 N 1 1 00", b"join 1 N 1 1 255", b"leave 1 N 1 1 256", b"leave 1 N 1 255 64", b"join 1 N 1 256 1",
    b"suspect", b"suspect 1 1", b"suspect 256", b"order 1", b"order ", b" order", b"Order", b"cell 1", b"cell 1 255", b"cell 255 1",
    b"cell 1 256", b"cell 256 1", b"cell 1 1 1", b"deliver N", b"stop 255", b"start 00", b"message 0", b"mark 1", b"",
)

DAMAGES = (
    byte, byte, byte_out, byte_in, cut, no_end, no_end, tail, tail, carriage_returns, upper, over(0), over(1), over(1), over(1000),
    on_lines(drop), on_lines(double), on_lines(swap), on_lines(empty_line), on_lines(count_off), on_lines(count_off),
    *map(head_other, HEADS), *map(name_other, NAMES), *map(name_in_step, STRANGERS), *map(step_other, STEPS),
    on_number(lambda rng, word: b"0" + word),
    on_number(lambda rng, word: rng.choice((b"0" * 19, b"1" * 19, b"9" * 18, b"9" * 20, b"18446744073709551616", b"9" * 40))),
    on_number(lambda rng, word: str(rng.choice((0, 63, 64, 255, 256, 2**32 - 1, 2**32, 10**18 - 1, 10**18))).encode()),
    on_number(lambda rng, word: rng.choice((b"+", b"-", b"0x", b"")) + word),
    on_word(lambda rng, word: b""),
    on_word(lambda rng, word: rng.choice((b" ", b"\t", b"")) + word + rng.choice((b" ", b"\t", b"\r", b"\x0b"))),
    on_word(lambda rng, word: word + b" " + word),
    on_word(lambda rng, word: word.upper()),
)


def main():
    seed, count, folder = sys.argv[1], int(sys.argv[2]), pathlib.Path(sys.argv[3])
    folder.mkdir(parents=True, exist_ok=True)
    for index in range(count):
        for kind, make in (("valid", valid), ("damaged", damaged)):
            (folder / f"{kind}-{seed}-{index}.run").write_bytes(make(seed, index))


if __name__ == "__main__":
    main()
