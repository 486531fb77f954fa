#!/usr/bin/env python3
"""Says what the program `damage` must write, from document 01: crates/damage/stdout is what this prints.

Nothing here looks at the kernel's code. A table is sound when for some number of used records every rule of "A sound table" holds, so all
numbers are tried. The index is rebuilt from the records and compared word for word. A reading goes down the diagram by definition.
The lengths, the words of a record and the hash are those of the crate table's specs (Layout, Indexed)."""

LOW, HIGH = -2**32 - 1, 2**32 - 1  # the end places; a cut is any place but the lowest

NODES = [40, 2, 0, 0, 3, 3, 2, 0, 1, 2, 5, 0, 0, 0, 0, 0]  # variable, edges, first edge, spare
CHILDREN = [0, 1, 2, 0, 3, 0, 5, 0, 0, 0]
CUTS = [0, 0, -5, 10, 0, 5, 0, 0, 0, 0]
INDEX = [1, 0, 2, 0] + [3, 0, 0, 0] + [0, 0, 1, 0] + [411767173, 2978375512, 505234245, 0]  # first nodes, nexts, nodes before, hashes
WORDS = [0, 1, 2, 3, 4, 5, 6, 7, 8, 9, 40, 63, 64, 65, 2**31, 2**32 - 1]
PLACES = [0, 1, -1, -5, -6, -4, 9, 10, 11, 2**32 - 1, 2**32, -2**32, -2**32 - 1, -2**63, 2**63 - 1, 12]
SOUND = [NODES, CHILDREN, CUTS, INDEX]
LENGTHS = [(16, 10, 10, 16), (15, 10, 10, 16), (17, 10, 10, 16), (16, 9, 10, 16), (16, 11, 10, 16), (16, 10, 9, 16), (16, 10, 11, 16),
           (16, 10, 10, 15), (16, 10, 10, 17), (0, 10, 10, 16), (0, 10, 10, 0), (16, 0, 10, 16), (16, 10, 0, 16), (16, 0, 0, 16), (16, 10, 10, 0),
           (0, 0, 0, 0), (16, 1, 1, 16), (16, 7, 7, 16), (16, 6, 6, 16), (16, 11, 11, 16), (12, 10, 10, 12), (20, 10, 10, 20), (18, 10, 10, 16)]


def allowed(nodes, children, cuts, index):
    """Node room 1 to 4,096 records of four words, edge room 2 to 16,384, a cut for each edge, four index words for each record."""
    room = len(nodes) // 4
    return (len(nodes) == room * 4 and 1 <= room <= 4096 and 2 <= len(children) <= 16384
            and len(cuts) == len(children) and len(index) == room * 4)


def hash_of(variable, kids, ks):
    mixed = variable
    for kid, k in zip(kids, ks):
        mixed = (mixed * 1640531527 + kid * 805459861 + k - LOW) % 2**32
    return mixed


def chained(records, room, order):
    """For each bucket its first node, for each node the next of its bucket, the one before it and its hash, in the order given."""
    firsts, nexts, lasts = [0] * room, [0] * room, [0] * room
    hashes = [hash_of(*record) for record in records]
    for bucket in range(room):
        chain = [n for n in order if hashes[n] * room // 2**32 == bucket]
        firsts[bucket] = chain[0] + 1 if chain else 0
        for n, m in zip(chain, chain[1:]):
            nexts[n], lasts[m] = m + 1, n + 1
    return firsts + nexts + lasts + hashes + [0] * (room - len(records))


def rebuilt(records, room):
    """Nodes are ordered by hash, variable, number of edges, then child and cut of each edge; nodes that are the same, by number."""
    def key(n):
        variable, kids, ks = records[n]
        return hash_of(*records[n]), variable, len(kids), [word for edge in zip(kids, ks) for word in edge]
    return chained(records, room, sorted(range(len(records)), key=key))


def all_records(nodes, children, cuts):
    """Every record of the room, with its edges as far as there are so many."""
    return [(variable, children[first:first + count], cuts[first:first + count])
            for variable, count, first, _ in zip(*(nodes[k::4] for k in range(4)))]


def node_ok(n, variable, kids, ks, variables):
    if variable >= 64 or kids[0] % 2 == 1 or ks[-1] != 0:
        return False
    if variable >= 32 and (len(kids) != 2 or ks[0] != 0):
        return False
    if variable < 32 and not (2 <= len(kids) <= 64 and all(LOW < k <= HIGH for k in ks[:-1])
                              and all(a < b for a, b in zip(ks[:-1], ks[1:-1]))):
        return False
    below = all(kid < 2 or (kid // 2 - 1 < n and variables[kid // 2 - 1] > variable) for kid in kids)
    return below and all(a != b for a, b in zip(kids, kids[1:]))


def sound_with(used, nodes, children, cuts, index):
    """The edges used when the first `used` records are the table and all else is unused, or None when that breaks a rule."""
    records, edges = [], 0
    for n in range(used):
        variable, count, first, spare = nodes[4 * n:4 * n + 4]
        if spare != 0 or first != edges or count < 2 or edges + count > len(children):
            return None
        kids, ks = children[edges:edges + count], cuts[edges:edges + count]
        if not node_ok(n, variable, kids, ks, [r[0] for r in records]) or (variable, kids, ks) in records:
            return None
        records.append((variable, kids, ks))
        edges += count
    if any(nodes[4 * used:]) or any(children[edges:]) or any(cuts[edges:]):
        return None
    return edges if index == rebuilt(records, len(nodes) // 4) else None


def check(nodes, children, cuts, index):
    if not allowed(nodes, children, cuts, index):
        return 1, 0, 0
    for used in range(len(nodes) // 4 + 1):
        edges = sound_with(used, nodes, children, cuts, index)
        if edges is not None:
            return 0, used, edges
    return 2, 0, 0


def holds(table, places, bools, node_id):
    """TRUE, FALSE, or what the child says where the variable stands; a complemented id says the opposite."""
    nodes, children, cuts, _ = table
    if node_id < 2:
        return node_id == 0
    variable, count, first, _ = nodes[4 * (node_id // 2 - 1):][:4]
    if variable >= 32:
        edge = 0 if bools >> (variable - 32) & 1 else 1
    else:
        edge = sum(1 for k in cuts[first:first + count - 1] if k <= places[variable])
    return holds(table, places, bools, children[first + edge]) != (node_id % 2 == 1)


def evaluate(table, places, bools, node_id):
    number, used, _ = check(*table)
    if number == 1 or len(places) != 32:
        return 1, False
    if number == 2:
        return 2, False
    if node_id // 2 > used:
        return 3, False
    if any(p < LOW or p > HIGH for p in places):
        return 5, False
    return 0, holds(table, places, bools, node_id)


def part_words(name, sound):
    """Each word of each slice of a sound table, set to each value, all other words as they were. But with room for one record or two, the
    index of a table with a changed record or edge is what the records say then: else the hash would refuse it whatever rule is broken."""
    print(name, *check(*sound))
    asked = unchanged = taken = 0
    for part, at, values in ("nodes", 0, WORDS), ("children", 1, WORDS), ("cuts", 2, PLACES), ("index", 3, WORDS):
        for i in range(len(sound[at])):
            answers = []
            for value in values:
                table = [list(words) for words in sound]
                table[at][i] = value
                if at < 3 and len(sound[3]) <= 8:
                    table[3] = rebuilt(all_records(*table[:3]), len(sound[0]) // 4)
                answers.append(check(*table)[0])
                asked, unchanged, taken = asked + 1, unchanged + (sound[at][i] == value), taken + (answers[-1] == 0)
            print(part, i, "".join(map(str, answers)))
    print("asked", asked, "unchanged", unchanged, "taken", taken)


def part_orders(name, nodes, cuts):
    """Two nodes of one hash, in the order of their numbers, which is the right one, and the other way round."""
    table = [nodes, [0, 1, 0, 1, 0], cuts]
    records = all_records(*table)
    assert hash_of(*records[0]) == hash_of(*records[1])
    for order in (0, 1), (1, 0):
        print(name, *check(*table, chained(records, 2, order)))


def cut_to(*lengths):
    """The first words of each slice, where zeros follow the sound table."""
    return [(part + [0] * 8)[:n] for part, n in zip(SOUND, lengths)]


def part_lengths():
    for lengths in LENGTHS:
        print("lengths", *lengths, "number", check(*cut_to(*lengths))[0])
    for records, edges in (4096, 2), (4097, 2), (1, 16384), (1, 16385):
        number = check([0] * 4 * records, [0] * edges, [0] * edges, [0] * 4 * records)[0]
        print("empty", records, edges, "number", number)


def part_refusals():
    """Damaged is the sound table with a spare word set. All places are 0 but that of variable 31."""
    damaged = [NODES[:3] + [1] + NODES[4:]] + SOUND[1:]
    for name, table, length, place, node_id in (
            ("places 31", SOUND, 31, 0, 4), ("places 32", SOUND, 32, 0, 4), ("places 33", SOUND, 33, 0, 4), ("places 0", SOUND, 0, 0, 4),
            ("id 7", SOUND, 32, 0, 7), ("id 8", SOUND, 32, 0, 8), ("id 9", SOUND, 32, 0, 9), ("id 4294967295", SOUND, 32, 0, 2**32 - 1),
            ("place 4294967295", SOUND, 32, HIGH, 4), ("place 4294967296", SOUND, 32, HIGH + 1, 4),
            ("place -4294967297", SOUND, 32, LOW, 4), ("place -4294967298", SOUND, 32, LOW - 1, 4),
            ("highest i64", SOUND, 32, 2**63 - 1, 4), ("lowest i64", SOUND, 32, -2**63, 4), ("terminal, bad place", SOUND, 32, HIGH + 1, 0),
            ("damaged", damaged, 32, 0, 4), ("damaged, 31 places", damaged, 31, 0, 4), ("damaged, id 8", damaged, 32, 0, 8),
            ("damaged, bad place", damaged, 32, HIGH + 1, 4), ("id 8, bad place", SOUND, 32, HIGH + 1, 8),
            ("damaged, 33 places, id 8, bad place", damaged, 33, HIGH + 1, 8)):
        number, yes = evaluate(table, ([0] * 31 + [place, 0])[:length], 0, node_id)
        print(name + ":", number, answer(yes))


def answer(yes):
    return "yes" if yes else "no"


def part_readings():
    """Variables 1 and 3 at both ends and about their cuts, boolean 40 on while all others are off, and the other way round."""
    for first in LOW, 4, 5, HIGH:
        for third in LOW, -6, -5, 9, 10, HIGH:
            for name, bools in ("on", 1 << 8), ("off", 2**32 - 1 - (1 << 8)):
                places = [0, first, 0, third] + [0] * 28
                said = [evaluate(SOUND, places, bools, node_id) for node_id in range(8)]
                assert all(number == 0 for number, _ in said)
                print("read", first, third, name + ":", *(answer(yes) for _, yes in said))


def part_fresh():
    """Room full of 77s: with a length that is not allowed the first word of each slice stays, else all are zero."""
    for lengths in (16, 10, 9, 16), (16, 9, 10, 16), (15, 10, 10, 16), (16, 10, 10, 15), (16, 1, 1, 16), (16, 10, 10, 16), (8, 2, 2, 8):
        junk = [[77] * n for n in lengths]
        good = allowed(*junk)
        after = [[0] * n for n in lengths] if good else junk
        print("fresh", *lengths, "number", 0 if good else 1, "first words", *(part[0] for part in after), "check", *check(*after))


part_words("sound", SOUND)
part_words("boolean", [[40, 2, 0, 0], [0, 1, 0], [0, 0, 0], [1, 0, 0, 411767173]])
part_words("range", [[3, 3, 0, 0], [0, 1, 0, 0], [-5, 10, 0, 0], [1, 0, 0, 3091375842]])
part_words("twins", [[40, 2, 0, 0, 46, 2, 2, 0], [0, 1, 0, 1], [0, 0, 0, 0], [1, 0, 2, 0, 0, 1, 411767173, 1824620459]])
part_words("parent", [[40, 2, 0, 0, 3, 2, 2, 0], [0, 1, 2, 0], [0, 0, 7, 0], [1, 2, 0, 0, 0, 0, 411767173, 2418801138]])
part_orders("cuts", [0, 2, 0, 0, 0, 2, 2, 0], [10 - 2**32, 0, 10, 0, 0])
part_orders("variables", [0, 2, 0, 0, 1, 2, 2, 0], [10, 0, -1640531517, 0, 0])
part_orders("edges", [0, 2, 0, 0, 0, 3, 2, 0], [10, 0, -100, 2461748013, 0])
part_lengths()
part_refusals()
part_readings()
part_fresh()
