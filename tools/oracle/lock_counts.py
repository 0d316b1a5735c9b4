#!/usr/bin/env python3
"""Prints what the program test_locks must print, by the six rules of waiting and dying alone: its stored output comes from here.

A queue is a list of (transaction, is exclusive, is granted) in the order of arrival, the oldest transaction has the least number. Lists of events
are traversed depth first; the queues are copied, so no list is begun again. It takes some minutes.
"""

NOT_ASKED, GRANTED, QUEUED, DIED, RELEASED, NOTHING = "not asked", "granted", "queued", "died", "released", "nothing"
NOT_FORETOLD = "not foretold"  # in no list
NAMES = (NOT_ASKED, GRANTED, QUEUED, DIED, RELEASED, NOTHING, NOT_FORETOLD)
FNV_OFFSET, FNV_PRIME, MASK = 0xCBF29CE484222325, 0x100000001B3, (1 << 64) - 1
EVENTS = [(transaction, slot, writes) for transaction in (1, 2, 3) for slot, writes in ((0, False), (0, True), (1, False), (1, True), (None, None))]


def is_waiting(queues, transaction):
    return any(it[0] == transaction and not it[2] for queue in queues for it in queue)


def requested(queue, transaction, writes):
    """The answer to a request, and the queue after it."""
    others = [it for it in queue if it[0] != transaction]
    own = next((it for it in queue if it[0] == transaction), None)
    if own:
        if own[1] or not writes:
            return GRANTED, queue
        if any(it[2] for it in others):
            return DIED, queue
        return GRANTED, tuple((transaction, True, True) if it is own else it for it in queue)
    if not others or not writes and not any(it[1] for it in others):
        return GRANTED, queue + ((transaction, writes, True),)
    if all(transaction < it[0] for it in others):
        return QUEUED, queue + ((transaction, writes, False),)
    return DIED, queue


def without(queue, transaction):
    """The queue without the transaction's request, granted from the front."""
    left = []
    stops = False
    for it in queue:
        if it[0] == transaction:
            continue
        fits = not any(it[1] or before[1] for before in left)
        stops = stops or not fits
        left.append((it[0], it[1], it[2] or not stops))
    return tuple(left)


def step(state, event):
    """The answer to the event, its number, and the state after it: the queues, the slots of each transaction's requests in order, and the dead transactions."""
    queues, slots, dead = state
    transaction, slot, writes = event
    at = transaction - 1
    if slot is None:
        if not slots[at]:
            return NOTHING, 6, (queues, slots, dead - {transaction})
        first, rest = slots[at][0], slots[at][1:]
        queues = tuple(without(queue, transaction) if n == first else queue for n, queue in enumerate(queues))
        slots = slots[:at] + (rest,) + slots[at + 1 :]
        return RELEASED, 4 + first, (queues, slots, dead if rest else dead - {transaction})
    if transaction in dead or is_waiting(queues, transaction):
        return NOT_ASKED, 0, state
    answer, queue = requested(queues[slot], transaction, writes)
    if answer == DIED:
        return DIED, 3, (queues, slots, dead | {transaction})
    if slot not in slots[at]:
        slots = slots[:at] + (slots[at] + (slot,),) + slots[at + 1 :]
    return answer, 1 if answer == GRANTED else 2, (tuple(queue if n == slot else it for n, it in enumerate(queues)), slots, dead)


class Counts:
    def __init__(self, letters, most):
        self.letters, self.most, self.counts, self.checksum = letters, most, dict.fromkeys(("lists", *NAMES, "waiting", "standing"), 0), FNV_OFFSET
        self.known = {}

    def stepped(self, state, letter):
        key = state, letter
        if key not in self.known:
            answer, number, then = step(state, EVENTS[letter])
            waiting = [is_waiting(then[0], transaction) for transaction in (1, 2, 3)]
            standing = [bool(queue) for queue in then[0]]
            bits = sum(is_one << n for n, is_one in enumerate(waiting + standing))
            self.known[key] = answer, number, then, sum(waiting), sum(standing), bits
        return self.known[key]

    def go_through(self, state, depth):
        for letter in range(self.letters):
            answer, number, then, waiting, standing, bits = self.stepped(state, letter)
            counts = self.counts
            counts["lists"] += 1
            counts[answer] += 1
            counts["waiting"] += waiting
            counts["standing"] += standing
            self.checksum = (((self.checksum ^ number) * FNV_PRIME & MASK) ^ bits) * FNV_PRIME & MASK
            if answer != NOT_ASKED and depth < self.most:
                self.go_through(then, depth + 1)


def main():
    for name, letters, most in (("two", 10, 7), ("three", 15, 6)):
        counts = Counts(letters, most)
        counts.go_through((((), ()), ((), (), ()), frozenset()), 1)
        print(f"== {name} transactions")
        for word, count in counts.counts.items():
            print(f"{word} {count}")
        print(f"checksum {counts.checksum:016x}")


if __name__ == "__main__":
    main()
