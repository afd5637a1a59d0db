#!/usr/bin/env python3
"""A second machine of the catalogue, with rows as words, to work out what crates/both_tables must print (crates/both_tables/stdout).

    python3 tools/both_tables.py tables DATA NAME..    what both_tables prints for these files of the folder DATA
    python3 tools/both_tables.py file FILE             what a schedule file prints, to hold this machine to crates/vectors/stdout

It was written from the algorithm's routines, not from the code of the crates: a request is a coroutine that pauses before each access to
shared data, and a step lets it run to the next pause. It knows one table alone, so it cannot find the two tables different: that count is 0. What
is to be said of other numbers of words than 512 stands here as text, by the rule that such words are refused with 4.
"""
import sys

HEAD, TAIL, ROWS, WORKERS = 0, 1, 128, 8
FREE, LINKED = 0, 1  # a standing; 2 + w is held by worker w


class Row:
    def __init__(self, succ=(0, 0, 0), standing=FREE):
        self.key, self.element, self.backlink, self.succ, self.standing = 0, 0, 0, succ, standing

    # key, element, successor, and the rest
    def words(self):
        right, mark, flag = self.succ
        return [self.key, self.element, right * 4 + mark * 2 + flag, self.standing * 256 + self.backlink]


class Worker:
    def __init__(self):
        self.run, self.held, self.answer, self.element = None, None, 0, 0


class Catalogue:
    def __init__(self):
        self.rows = [Row((1, 0, 0), LINKED), Row((0, 0, 0), LINKED)] + [Row() for _ in range(ROWS - 2)]
        self.workers = [Worker() for _ in range(WORKERS)]

    # ---- What private work may ask of a row ----

    def has_key(self, row, k):
        return row > TAIL and self.rows[row].key == k

    # up to k, or below it
    def is_before(self, row, k, strictly):
        if row <= TAIL:
            return row == HEAD
        return self.rows[row].key < k if strictly else self.rows[row].key <= k

    # ---- Accesses ----

    def right(self, row):
        return self.rows[row].succ[0]

    def mark(self, row):
        return self.rows[row].succ[1]

    # the old value, and whether it was stored
    def cas(self, row, old, new):
        found = self.rows[row].succ
        if found == old:
            self.rows[row].succ = new
        return found, found == old

    # ---- The routines. Each `yield` stands before an access. ----

    def search_from(self, k, curr, strictly):
        yield
        following = self.right(curr)
        while self.is_before(following, k, strictly):
            while True:
                yield
                if not self.mark(following):
                    break
                yield
                if self.mark(curr):
                    yield
                    if self.right(curr) == following:
                        break
                yield
                if self.right(curr) == following:
                    yield from self.help_marked(curr, following)
                yield
                following = self.right(curr)
            if self.is_before(following, k, strictly):
                curr = following
                yield
                following = self.right(curr)
        return curr, following

    def help_marked(self, prev, gone):
        yield
        right = self.right(gone)
        yield
        self.cas(prev, (gone, 0, 1), (right, 0, 0))

    def help_flagged(self, prev, gone):
        yield
        self.rows[gone].backlink = prev
        yield
        if not self.mark(gone):
            yield from self.try_mark(gone)
        yield from self.help_marked(prev, gone)

    def try_mark(self, gone):
        while True:
            yield
            right = self.right(gone)
            yield
            found, _ = self.cas(gone, (right, 0, 0), (right, 1, 0))
            if not found[1] and found[2]:
                yield from self.help_flagged(gone, found[0])
            yield
            if self.mark(gone):
                return

    def walk_back(self, prev):
        yield
        while self.mark(prev):
            yield
            prev = self.rows[prev].backlink
            yield
        return prev

    def try_flag(self, prev, target, k):
        while True:
            yield
            if self.rows[prev].succ == (target, 0, 1):
                return prev, False
            yield
            found, done = self.cas(prev, (target, 0, 0), (target, 0, 1))
            if done:
                return prev, True
            if found == (target, 0, 1):
                return prev, False
            prev = yield from self.walk_back(prev)
            prev, second = yield from self.search_from(k, prev, True)
            if second != target:
                return None, False

    # ---- The requests. They return the answer's number and its element. ----

    def search(self, k):
        curr, _ = yield from self.search_from(k, HEAD, False)
        return (1, self.rows[curr].element) if self.has_key(curr, k) else (2, 0)

    def insert(self, w, k, element):
        prev, following = yield from self.search_from(k, HEAD, False)
        if self.has_key(prev, k):
            return 4, 0
        yield
        free = [i for i in range(2, ROWS) if self.rows[i].standing == FREE]
        if not free:
            return 6, 0
        new = free[0]
        row = self.rows[new] = Row((0, 0, 0), 2 + w)
        row.key, row.element = k, element
        self.workers[w].held = new
        while True:
            yield
            right, _, flag = self.rows[prev].succ
            if flag:
                yield from self.help_flagged(prev, right)
            else:
                yield
                row.succ = (following, 0, 0)
                found, done = self.cas(prev, (following, 0, 0), (new, 0, 0))
                if done:
                    row.standing = LINKED
                    return 3, 0
                if not found[1] and found[2]:
                    yield from self.help_flagged(prev, found[0])
                prev = yield from self.walk_back(prev)
            prev, following = yield from self.search_from(k, prev, False)
            if self.has_key(prev, k):
                self.rows[new] = Row()
                return 4, 0

    def delete(self, k):
        prev, target = yield from self.search_from(k, HEAD, True)
        if not self.has_key(target, k):
            return 2, 0
        flagged, result = yield from self.try_flag(prev, target, k)
        if flagged is not None:
            yield from self.help_flagged(flagged, target)
        return (5, self.rows[target].element) if result else (2, 0)

    # ---- Calls. They return 0 or the number of the refusal. ----

    # To the next pause, or to the finish.
    def go_on(self, w):
        worker = self.workers[w]
        try:
            next(worker.run)
        except StopIteration as end:
            worker.run, worker.held = None, None
            worker.answer, worker.element = end.value

    def submit(self, w, code, k, element):
        if w >= WORKERS:
            return 1
        if code not in (1, 2, 3):
            return 6
        worker = self.workers[w]
        if worker.run is not None:
            return 2
        worker.answer, worker.element = 0, 0
        worker.run = [self.search(k), self.insert(w, k, element), self.delete(k)][code - 1]
        self.go_on(w)
        return 0

    def step(self, w):
        if w >= WORKERS:
            return 1
        if self.workers[w].run is None:
            return 3
        self.go_on(w)
        return 0

    def call(self, x):
        return self.step(x[0]) if len(x) == 1 else self.submit(*x)

    # ---- The table as words, and whether words stand for a state that is well formed with these workers ----

    def words(self):
        return [word for row in self.rows for word in row.words()]

    def well_formed(self, words):
        held = {worker.held: w for w, worker in enumerate(self.workers) if worker.held is not None}
        for i in range(ROWS):
            succ, rest = words[4 * i + 2], words[4 * i + 3]
            standing = rest // 256
            if succ // 4 >= ROWS or rest % 256 >= ROWS or succ % 4 == 3:
                return False
            if i <= TAIL and standing != LINKED:
                return False
            if (standing - 2 if standing >= 2 else None) != held.get(i):
                return False
        return True


# The successor's word has ten bits; behind the backlink stands the standing's number, at most 2 + 255.
def packs_rows(words):
    return all(words[i + 2] < 1024 and words[i + 3] // 256 < 258 for i in range(0, len(words), 4))


# ---- Schedule files ----

def records(data):
    at = 3
    while at < len(data):
        n = data[at]
        body = data[at + 1 : at + 1 + n]
        if n == 1:
            yield (body[0],)
        else:
            yield (body[0], body[1], int.from_bytes(body[2:6], "big"), int.from_bytes(body[6:10], "big"))
        at += 1 + n


def refusal(data):
    if len(data) < 3:
        return 8
    if data[0] != 1:
        return 7
    stated = int.from_bytes(data[1:3], "big")
    if stated > 60000:
        return 10
    if stated != len(data) - 3:
        return 8
    at = 3
    while at < len(data):
        if data[at] not in (1, 10) or at + 1 + data[at] > len(data):
            return 9
        at += 1 + data[at]
    return 0


def show_file(data):
    refused = refusal(data)
    if refused:
        print("file", refused)
        return
    print("event worker result element")
    table = Catalogue()
    for n, x in enumerate(records(data), 1):
        said = table.call(x)
        if said:
            print(n, x[0], "r%d" % said, 0)
        elif len(x) == 1 and table.workers[x[0]].run is None:
            print(n, x[0], table.workers[x[0]].answer, table.workers[x[0]].element)
    row, saves, moves = HEAD, 0, 0
    while row != TAIL and moves < 128:
        row = table.right(row)
        moves += 1
        saves += row > TAIL and table.rows[row].standing == LINKED
    print("count", saves, "rows", sum(r.standing != FREE for r in table.rows[2:]))


# ---- What both_tables prints ----

def following(x):
    return (1103515245 * x + 12345) % 2**32


def five_on(x):
    for _ in range(5):
        x = following(x)
    return x


def below(x, n):
    return x // 65536 % n


def random_call(x, keys):
    a = following(x)
    if below(x, 8):
        return (below(a, 9),)
    b = following(a)
    c = following(b)
    return (below(a, 9), below(b, 5), below(c, keys), below(following(c), 1000))


def show_published(name, data):
    table = Catalogue()
    said = [table.call(x) for x in records(data)]
    print("%s: calls %d, refused %d, different 0" % (name, len(said), sum(s != 0 for s in said)))
    for i, row in enumerate(table.rows):
        if any(row.words()):
            print("  row %d:" % i, *row.words())


def show_random(seed, keys):
    table, x, refused = Catalogue(), seed, 0
    for i in range(6400):
        refused += table.call(random_call(x, keys) if i < 4000 else ((i - 4000) // 300,)) != 0
        x = five_on(x)
    total = 0
    for word in table.words():
        total = (total * 31 + word) % 2**32
    print("random, seed %d, keys below %d: calls 6400, refused %d, different 0" % (seed, keys, refused))
    print("  the words to the base 31:", total)


def show_changed(seed):
    table, x = Catalogue(), seed
    nothing_1 = nothing_4 = ill = well = 0
    for _ in range(4000):
        table.call(random_call(x, 12))
        x = five_on(x)
        words = table.words()
        y = following(x)
        words[x // 65536 % 512] = following(y) if below(y, 2) else below(following(y), 2700)
        no_worker = random_call(following(x), 12)[0] >= WORKERS
        if not packs_rows(words):
            nothing_1 += no_worker
            nothing_4 += not no_worker
        elif no_worker or table.well_formed(words):
            well += 1
        else:
            ill += 1
        x = five_on(x)
    print("changed words, seed %d: no rows, refused with 1: %d, with 4: %d; not well formed %d; well formed %d; different 0"
          % (seed, nothing_1, nothing_4, ill, well))


# Words of 1024 pack no rows, whatever their number; only 512 of them take a catalogue's.
def show_lengths():
    for n in (0, 4, 511, 512, 513, 516):
        packing = "0" if n == 512 else "4, words as they were"
        print("words %d: unpack 4, empty, submit 4, step 4, step of worker 8 1, words as they were, pack %s" % (n, packing))


def main():
    if len(sys.argv) < 3 or sys.argv[1] not in ("tables", "file"):
        sys.exit(__doc__)
    if sys.argv[1] == "file":
        show_file(open(sys.argv[2], "rb").read())
        return
    for name in sys.argv[3:]:
        show_published(name, open(sys.argv[2] + "/" + name, "rb").read())
    show_random(1, 12)
    show_random(2, 40)
    show_random(3, 4)
    show_random(4, 1000)
    show_changed(5)
    show_changed(6)
    show_lengths()


main()
