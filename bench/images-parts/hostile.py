#!/usr/bin/env python3
"""Images at random, broken images, and what they are by the rules of the image language, found by a checker that shares nothing with the reader.

usage: hostile.py make SEED COUNT > pieces; hostile.py judge pieces answers"""
import random, struct, sys

MAGIC = b'bcimage1'
CLASSES = (2, 4, 8, 16, 32, 64, 128)

def class_of(fields):
    return next(c for c in CLASSES if c >= fields + 1)

def make(rng):
    version = rng.randint(1, 3); lanes = rng.randint(1, 4); domains = rng.randint(1, 4); slots = rng.randint(1, 4)
    superpages = rng.randint(1, 4); nursery = rng.randint(1, 3); buffer = rng.randint(1, 9)
    frames = lanes * nursery + rng.randint(2, 4 * superpages)
    holders = [rng.randrange(lanes + (1 if version > 1 else 0)) for _ in range(domains)]
    births = [rng.choice([0, 1, 3, 50, 4000000000]) for _ in range(lanes)]
    if not any(births): births[0] = 40
    born = set(); objects = []
    for q in range(superpages):
        if rng.random() < 0.3: objects.append(None); continue
        c = rng.choice(CLASSES); d = rng.randrange(domains); count = rng.randint(1, min(6, 2048 // c)); cells = []
        for k in sorted(rng.sample(range(2048 // c), count)):
            for _ in range(20):
                lane = rng.randrange(lanes)
                if births[lane] == 0: continue
                serial = rng.randint(1, min(births[lane], 60)) if rng.random() < 0.9 else births[lane]
                if (lane, serial) not in born or rng.random() < 0.03: break
            else: continue
            born.add((lane, serial))
            fields = rng.choice([f for f in range(128) if class_of(f) == c])
            cells.append([2048 * q + c * k, lane, serial, d, fields])
        objects.append((c, d, cells) if cells else None)
    where = [o[0] for p in objects if p for o in p[2]]
    def word():
        r = rng.random()
        if r < 0.3: return 0
        if r < 0.6 or not where: return 2 * rng.randrange(2 ** 63 if rng.random() < 0.2 else 100) + 1
        return 2 * (rng.choice(where) + 1)
    items = [int.from_bytes(MAGIC, 'big'), version, lanes, domains, slots, superpages, nursery, buffer, frames, rng.randint(0, 5)]
    items += holders + births + [word() for _ in range(domains * slots)]
    for p in objects:
        if not p: items.append(0); continue
        c, d, cells = p
        items += [c + 256 * d, len(cells)]
        for a, lane, serial, dd, fields in cells:
            items += [a, fields | dd << 7 | lane << 13 | serial << 17] + [word() for _ in range(fields)]
    return b''.join(struct.pack('>Q', i) for i in items)

class Fault(Exception): pass

def check(data):
    """The answer's line, by the table of items."""
    at = 0; words = []; where = set()
    def take(test, cause):
        nonlocal at
        if at + 8 > len(data): raise Fault(at, 'Short')
        n = struct.unpack_from('>Q', data, at)[0]
        if not test(n): raise Fault(at, cause)
        at += 8
        return n
    between = lambda lo, hi: (lambda n: lo <= n <= hi)
    try:
        take(lambda n: n == int.from_bytes(MAGIC, 'big'), 'Magic')
        version = take(between(1, 3), 'Range'); lanes = take(between(1, 16), 'Range'); domains = take(between(1, 64), 'Range')
        slots = take(between(1, 256), 'Range'); superpages = take(between(1, 4096), 'Range'); nursery = take(between(1, 16), 'Range')
        take(between(1, 4096), 'Range'); take(between(lanes * nursery + 2, lanes * nursery + 4 * superpages), 'Range')
        take(between(0, 2 ** 32 - 1), 'Range')
        for _ in range(domains): take(lambda n: n < lanes or n == lanes and version >= 2, 'Range')
        births = [take(between(0, 4000000000), 'Range') for _ in range(lanes)]
        for _ in range(domains * slots):
            words.append((at, take(lambda n: n == 0 or n % 2 == 1 or n // 2 - 1 < 2048 * superpages, 'Range')))
        born = set(); objects = 0
        for q in range(superpages):
            pair = take(lambda n: n == 0 or n % 256 in CLASSES and n // 256 < domains, 'Range')
            if pair == 0: continue
            c, d = pair % 256, pair // 256; least = 0
            for _ in range(take(between(1, 2048 // c), 'Range')):
                a = take(lambda n: n // 2048 == q and n % c == 0 and n >= least, 'Cell'); least = a + 1; where.add(a); objects += 1
                def good(n):
                    f, dd, lane, serial = n & 127, n >> 7 & 63, n >> 13 & 15, n >> 17 & 0xffffffff
                    return n >> 49 == 0 and lane < lanes and 1 <= serial <= births[lane] and dd == d and class_of(f) == c
                here = at; n = take(good, 'Cell'); b = n >> 13
                if b in born: raise Fault(here, 'Twice')
                born.add(b)
                for _ in range(n & 127): words.append((at, take(lambda n: True, 'Range')))
        for place, n in words:
            if n and n % 2 == 0 and n // 2 - 1 not in where: raise Fault(place, 'Link')
        return f'image {at} {objects}'
    except Fault as f:
        return f'fault {f.args[0]} {f.args[1]}'

def crowded(rng):
    """One class in all superpages, and many births that are equal, or of which only the last bits or the lanes differ."""
    lanes = rng.randint(1, 16); superpages = rng.randint(1, 3); c = rng.choice((2, 4)); fields = rng.randint(c // 2, c - 1)
    items = [int.from_bytes(MAGIC, 'big'), 1, lanes, 1, 1, superpages, 1, 1, lanes + 2, 0, 0] + [4000000000] * lanes + [0]
    few = rng.choice((1, 2, 30, 400, 10 ** 9)); step = rng.choice((1, 2 ** 8, 2 ** 16)); count = 0
    order = rng.sample(range(10 ** 4), 10 ** 4)
    for q in range(superpages):
        n = rng.randint(1, 300); items += [c, n]
        for k in range(n):
            s = 1 + step * (order[count] % few); lane = rng.randrange(lanes) if rng.random() < 0.01 else 0; count += 1
            items += [2048 * q + c * k, fields | lane << 13 | min(s, 4000000000) << 17] + [2 * rng.randrange(9) + 1] * fields
    return b''.join(struct.pack('>Q', i) for i in items)

def broken(rng, image):
    data = bytearray(image); r = rng.random()
    if r < 0.2: return bytes(data[:rng.randrange(len(data) + 1)])
    if r < 0.3: return bytes(data) + bytes(rng.randrange(20))
    for _ in range(rng.choice([1, 1, 1, 2, 5])):
        k = rng.randrange(len(data))
        if rng.random() < 0.7: k = k // 8 * 8 + rng.choice([5, 6, 7])
        data[k] = rng.choice([data[k] ^ (1 << rng.randrange(8)), rng.randrange(256), data[(k + 8) % len(data)]]) % 256
    if rng.random() < 0.2:
        j, k = (rng.randrange(len(data) // 8) * 8 for _ in range(2)); data[k:k + 8] = data[j:j + 8]
    return bytes(data)

def main():
    if sys.argv[1] == 'make':
        rng = random.Random(int(sys.argv[2])); out = sys.stdout.buffer
        for _ in range(int(sys.argv[3])):
            r = rng.random(); image = make(rng)
            data = image if r < 0.2 else crowded(rng) if r < 0.28 else broken(rng, crowded(rng)) if r < 0.3 else broken(rng, image) if r < 0.97 else rng.randbytes(rng.randrange(200))
            out.write(struct.pack('>Q', len(data)) + data)
        return
    pieces = open(sys.argv[2], 'rb').read(); lines = open(sys.argv[3]).read().split('\n')[:-1]; at = 0; k = 0; kinds = {}
    while at < len(pieces):
        n = struct.unpack_from('>Q', pieces, at)[0]; want = check(pieces[at + 8:at + 8 + n]); at += 8 + n
        kinds[want.split()[0] + ' ' + (want.split()[2] if want[0] == 'f' else '')] = kinds.get(want.split()[0] + ' ' + (want.split()[2] if want[0] == 'f' else ''), 0) + 1
        if k >= len(lines) or lines[k] != want: print(f'piece {k}: {lines[k] if k < len(lines) else None!r}, and not {want!r}'); sys.exit(1)
        k += 1
    print(f'{k} pieces agree', kinds, 'lines', len(lines))

main()
