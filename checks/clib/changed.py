"""Changes some words of a words file, and writes a flow file with drawn rows.

    changed.py WORDS CHANGED FLOW SEED
"""

import random
import sys

from_words, to_words, to_flow, seed = sys.argv[1:]
random.seed(int(seed))
data = open(from_words, "rb").read()
words = [bytearray(data[at : at + 9]) for at in range(0, len(data), 9)][:4000]
changed = []
for word in words:
    change = random.randrange(40)
    if change == 0:
        word[1 + random.randrange(8)] ^= 1 << random.randrange(8)
    elif change == 1:
        word[0] = random.choice([1, 2, 3])
    elif change == 2:
        continue
    elif change == 3:
        changed.append(random.choice(words))
    changed.append(word)
with open(to_words, "wb") as file:
    file.write(b"".join(changed))


def crc24(number):
    crc = 0xFFFFFF
    for n in range(63, -1, -1):
        crc = crc << 1 & 0xFFFFFF ^ (0x328B63 if (crc >> 23 ^ number >> n) & 1 else 0)
    return crc ^ 0xFFFFFF


with open(to_flow, "w") as file:
    for slot in sorted(random.randrange(len(changed) + 5) for _ in range(random.choice([0, 3, 40, 400]))):
        word = (0x80 | random.choice([0, 1])) << 56 | random.choice([0, 0xFFFF, random.randrange(1 << 16)]) << 40
        word |= crc24(word) if random.randrange(9) > 0 else random.randrange(1 << 24)
        file.write("%d,%016x\n" % (slot, word if random.randrange(20) > 0 else 0))
