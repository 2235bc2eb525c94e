"""A second implementation of what `generate` and `pack` draw by a seed: the generator PCG XSL RR 128/64 (O'Neill 2014), numbers below a bound by
Canon's and by Lemire's method, samples of places as the crate rand takes them, and the links that docs/commands/generate.md names."""

import struct

WORD, MOST_WORD = 2**32, 2**32 - 1


def rotated(word, by, bits):
    """The word, turned right by so many bits."""
    return (word >> by | word << (bits - by)) % 2**bits


def single(number):
    """The nearest floating-point number of 32 bits."""
    return struct.unpack("f", struct.pack("f", number))[0]


def seed_bytes(seed):
    """The 32 bytes that a seed is spread to, by PCG XSH RR 64/32."""
    state, words = seed, []
    for _ in range(8):
        state = (state * 0x5851F42D4C957F2D + 0xA17654E46FBE17F3) % 2**64
        words.append(rotated((state >> 18 ^ state) >> 27 & MOST_WORD, state >> 59, 32))
    return struct.pack("<8I", *words)


class Generator:
    """Words that a seed draws."""

    MULTIPLIER = 0x2360ED051FC65DA44385DF649FCCF645

    def __init__(self, seed):
        spread = seed_bytes(seed)
        state, self.increment = int.from_bytes(spread[:16], "little"), int.from_bytes(spread[16:], "little") | 1
        self.state = (state + self.increment) % 2**128
        self.step()

    def step(self):
        self.state = (self.state * self.MULTIPLIER + self.increment) % 2**128

    def word(self, bits):
        """The next word, of 32 bits or of 64."""
        self.step()
        high, low = self.state >> 64, self.state % 2**64
        return rotated(high ^ low, self.state >> 122, 64) % 2**bits

    def below(self, count, bits):
        """A number below a count, by Canon's method."""
        high, low = divmod(self.word(bits) * count, 2**bits)
        if low > 2**bits - count:
            high += low + (self.word(bits) * count >> bits) >= 2**bits
        return high

    def fair(self, count, bits):
        """A number below a count, by Lemire's method."""
        least = (2**bits - count) % count
        while True:
            high, low = divmod(self.word(bits) * count, 2**bits)
            if low >= least:
                return high

    def place(self, low, high):
        """A number from `low` up to the one before `high`."""
        return low + self.below(high - low, 32 if high <= MOST_WORD else 64)


def is_shuffled(length, amount):
    """Whether a sample of so many places is taken by a shuffle of all of them; where it is not, and there are few, by Floyd's method."""
    is_short = length < 500_000
    if length > MOST_WORD:
        return False
    if amount < 163:
        slope = single(1.6) if is_short else single(single(8) / single(45))
        start = 10.0 if is_short else single(single(70) / single(9))
        return amount > 11 and single(length) < single(single(start + single(slope * amount)) * amount)
    return single(length) < single((270.0 if is_short else single(single(330) / single(9))) * single(amount))


def sample(draws, length, amount):
    """So many different places below a length."""
    places, seen = [], set()
    if is_shuffled(length, amount):
        places = list(range(length))
        for place in range(amount):
            other = draws.place(place, length)
            places[place], places[other] = places[other], places[place]
        return places[:amount]
    if length <= MOST_WORD and amount < 163:
        for last in range(length - amount, length):
            place = draws.below(last + 1, 32)
            if place in seen:
                places[places.index(place)] = last
                seen.add(last)
            places.append(place)
            seen.add(place)
        return places
    while len(places) < amount:
        place = draws.fair(length, 64 if length > MOST_WORD else 32)
        if place not in seen:
            seen.add(place)
            places.append(place)
    return places


def links_at(nodes, places):
    """Links at places of a rectangle of all pairs: in row i those of node i, then those of the node that has as many as are wanting."""
    width = 2 * ((nodes - 1) // 2) + 1
    for place in places:
        row, column = divmod(place, width)
        above = nodes - 1 - row
        if column < above:
            yield row, row + 1 + column
        else:
            other = nodes - 1 - (width - above)
            yield other, other + 1 + column - above


def random_links(draws, nodes, count):
    """Links at so many places that are drawn."""
    return links_at(nodes, sample(draws, nodes * (nodes - 1) // 2, count))


def chance_links(draws, nodes, billionths):
    """Links at those places of all for which a number is drawn that is below so many billionths."""
    return links_at(nodes, [place for place in range(nodes * (nodes - 1) // 2) if draws.below(10**9, 32) < billionths])


def block_links(draws, sizes, within, between):
    """Links of those pairs for which a number is drawn that is below so many billionths, in one block or between two."""
    blocks = [block for block, size in enumerate(sizes) for _ in range(size)]
    pairs = links_at(len(blocks), range(len(blocks) * (len(blocks) - 1) // 2))
    return [pair for pair in pairs if draws.below(10**9, 32) < (within if blocks[pair[0]] == blocks[pair[1]] else between)]


def preferential_links(draws, nodes, each):
    """Each node with so many before it, which are drawn as ends of links, 64 times at most for each; then the lowest that are left."""
    links = []
    for node in range(nodes):
        count, chosen = min(each, node), []
        for _ in range(64 * count if each < node else 0):
            if len(chosen) >= count:
                break
            if links:
                link = links[draws.place(0, len(links))]
                end = link[0] if draws.word(32) >= 2**31 else link[1]
                if end not in chosen:
                    chosen.append(end)
        chosen += [other for other in range(node) if other not in chosen][: count - len(chosen)]
        links += [(node, other) for other in chosen]
    return links


def small_world_links(draws, nodes, near, rewire, of=100):
    """Links round a ring, of which `rewire` in `of` are led to a node that is drawn, 64 times at most."""
    links = [(node, (node + 1 + step) % nodes) for node in range(nodes) for step in range(near)]
    pairs = {frozenset(link) for link in links}
    for place, (start, end) in enumerate(links):
        if draws.below(of, 32) >= rewire:
            continue
        for _ in range(64):
            node = draws.below(nodes, 32)
            if node != start and frozenset((start, node)) not in pairs:
                pairs.remove(frozenset((start, end)))
                pairs.add(frozenset((start, node)))
                links[place] = start, node
                break
    return links


def rows(nodes, links):
    """For each node its neighbours by rising number, each with weight 1."""
    near = [set() for _ in range(nodes)]
    for one, other in links:
        near[one].add(other)
        near[other].add(one)
    return [[(node, 1) for node in sorted(row)] for row in near]
