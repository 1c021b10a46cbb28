"""The scripts that `bench/run` plays, each with how many actions on the pool it asks for.

An action is a load, store, compare-and-swap or add of a node, a merger or a session, from the first line to the end of the last drain.
Their number follows from the formats alone: it is counted here by a small model of logs, pending keys and bucket chains, and
no answer of the program is used.
"""

import random

WORDS = 1024  # of a segment


def hashed(key):
    """FNV-1a over a key's eight bytes."""
    value = 0xCBF29CE484222325
    for byte in key.to_bytes(8, "little"):
        value = (value ^ byte) * 0x100000001B3 % 2**64
    return value


def owners(nodes):
    """The node of each slot: that of the first point at or after where the slot begins."""
    points = sorted((hashed(256 * node + i), node) for node in range(1, nodes + 1) for i in range(16))
    return [next((node for at, node in points if at >= slot << 58), points[0][1]) for slot in range(64)]


class Index:
    """The keys of each bucket chain, in the order of their places."""

    def __init__(self):
        self.chains = {}

    def set(self, key):
        """How many actions a walk makes that sets the key."""
        chain = self.chains.setdefault(hashed(key) >> 52, [])
        if key in chain:
            place = chain.index(key)
            return place // 3 * 4 + place % 3 + 2
        buckets = max(1, -(-len(chain) // 3))
        free = len(chain) < 3 * buckets
        chain.append(key)
        return 4 * buckets + (2 if free else 5)


class Node:
    """A node that makes one call after the other. Nothing is merged before the script's end."""

    def __init__(self):
        self.stamp = 0
        self.len = 0
        self.puts = []
        self.pending = set()

    def position(self, last, get):
        """The position (stamp, rank) of a call of a session that was last at this one; whether the stamp was raised."""
        if get and self.stamp >= last[0]:
            return (self.stamp, last[1] + 1 if self.stamp == last[0] else 1), False
        self.stamp = max(self.stamp, last[0]) + 1
        return (self.stamp, 0), True

    def get(self, key, last):
        """How many actions a get makes of a value of at most 8 bytes, and its position."""
        last, raised = self.position(last, True)
        return 6 + raised, last

    def put(self, key, last):
        """How many actions a put makes of 1 to 8 bytes, and its position: the deed, the location, the gate, room, flows, the seal."""
        last, _ = self.position(last, False)
        actions = 2 + (2 if key in self.pending else 4) + 3 + 1
        rest = -self.len % WORDS
        if rest < 3:
            actions += 3 + (rest > 0)
            self.puts += [None] * (rest > 0)
            self.len += rest
        self.len += 3
        self.puts.append(key)
        self.pending.add(key)
        return actions, last

    def drain(self, index):
        """How many actions its merger makes, an idle turn at the end."""
        return 2 + sum(5 if key is None else 6 + index.set(key) for key in self.puts)


def get_or_put(lines, node, words, key, value, last):
    """Appends a put or a get of a session, half and half: how many actions it makes at the node, and the session's position then."""
    if random.random() < 0.5:
        lines.append(f"{words} put {key} ={value % 10**8}")
        return node.put(key, last)
    lines.append(f"{words} get {key}")
    return node.get(key, last)


def calls_of_one(calls, keys, seed):
    """Gets and puts of one client at one node, half and half, each run to its end."""
    random.seed(seed)
    node, lines, last, met, actions = Node(), [], (0, 0), set(), 129
    for number in range(calls):
        key = random.randint(1, keys)
        if hashed(key) >> 58 not in met:
            met.add(hashed(key) >> 58)
            actions += 1
        made, last = get_or_put(lines, node, "c1", key, number, last)
        actions += made
    return text(lines), actions + node.drain(Index())


def calls_in_turns(calls, sessions, nodes, keys, part, seed):
    """Gets and puts of several sessions at several nodes, half and half. In each round every session starts a call; then the nodes
    that have some act by turns, so many actions each, until all are made."""
    random.seed(seed)
    owner = owners(nodes)
    cluster = {node: Node() for node in range(1, nodes + 1)}
    lasts, met, lines, actions = {}, set(), [f"nodes {nodes}"], 129
    for first in range(0, calls, sessions):
        left = {}
        for session in range(1, sessions + 1):
            key = random.randint(1, keys)
            slot = hashed(key) >> 58
            node = cluster[owner[slot]]
            if (session, slot) not in met:
                met.add((session, slot))
                actions += 1
            made, lasts[session] = get_or_put(lines, node, f"c{session} start", key, first, lasts.get(session, (0, 0)))
            left[owner[slot]] = left.get(owner[slot], 0) + made
            actions += made
        while left:
            for node in list(left):
                count = min(part, left[node])
                lines.append(f"step {node} {count}")
                left[node] -= count
                if left[node] == 0:
                    del left[node]
    index = Index()
    return text(lines), actions + sum(node.drain(index) for node in cluster.values())


def puts(calls, keys, merges, seed):
    """Puts of one client at one node; with `merges`, 40 actions of the merger behind every ten lines."""
    random.seed(seed)
    lines = []
    for number in range(calls):
        lines.append(f"c1 put {random.randint(1, keys)} ={number % 10**8}")
        if merges and number % 10 == 9:
            lines.append("merge 1 40")
    return text(lines)


def text(lines):
    return "".join(line + "\n" for line in lines)
