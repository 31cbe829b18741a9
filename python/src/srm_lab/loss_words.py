"""The words by which losses at random decide, as docs/MODEL.md has them."""
MASK = 2**64 - 1
GOLDEN = 0x9e3779b97f4a7c15
NOBODY = 65_535  # stands for the sender in the word of a burst, since no member has this number


def mixed(word: int) -> int:
    """The output function of SplitMix64 (Steele, Lea and Flood 2014)."""
    word = (word ^ word >> 30) * 0xbf58476d1ce4e5b9 & MASK
    word = (word ^ word >> 27) * 0x94d049bb133111eb & MASK
    return word ^ word >> 31


def loss_word(seed: int, stream: int, link: int, sender: int, count: int) -> int:
    """The word of 32 bits of a sender's packet at a link, or of NOBODY's burst, for a seed and a stream."""
    word = mixed((seed + GOLDEN) & MASK)
    for part in (stream, link * 65536 + sender, count):
        word = mixed(word ^ part)
    return word >> 32
