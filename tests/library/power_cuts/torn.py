"""What a power cut may leave of one change of a file: of appended bytes, of a file that got shorter, and of bytes that were written
over older ones.
"""

import itertools

# A disk writes whole sectors, of 512 bytes or more. Here they are smaller, so that more lines lie across their ends.
SECTOR = 64

# Up to so many sectors, each choice of those that are new is tried.
ALL_CHOICES = 3


def between(before, after, lengths):
    """What a cut may leave of a file that had the bytes `before` when it was synced, and has `after` now. lengths returns up to which
    places a part may be there."""
    yield before
    common = min(len(before), len(after))
    over = [at for at in range(common) if before[at] != after[at]]
    bases = {before[:common]}
    if over:
        bases |= set(overwritten(before[:common], after[:common], over[0], over[-1] + 1, lengths))
    for base in bases:
        # (the rest of what was there, or of what is there now)
        yield base + before[common:]
        for end in lengths(common, len(after)):
            yield base + after[common:end]
            # (its length reached the disk, and its bytes did not)
            yield base + after[common:end] + bytes(len(after) - end)


def overwritten(before, after, first, last, lengths):
    """Bytes of one length, of which those from first to last were written anew: each sector is old or new, and of one of them a prefix
    may be new."""
    sectors = [
        (max(first, at * SECTOR), min(last, (at + 1) * SECTOR)) for at in range(first // SECTOR, (last - 1) // SECTOR + 1)
    ]
    for choice in choices(len(sectors)):
        for torn, (begin, end) in enumerate(sectors):
            for place in lengths(begin, end):
                new = [
                    (at, place if number == torn else to)
                    for number, (at, to) in enumerate(sectors)
                    if number == torn or choice[number]
                ]
                yield with_new(before, after, new)


def with_new(before, after, places):
    mixed = bytearray(before)
    for at, to in places:
        mixed[at:to] = after[at:to]
    return bytes(mixed)


def choices(count):
    """Which of so many sectors are new."""
    if count <= ALL_CHOICES:
        return list(itertools.product((False, True), repeat=count))
    begins = [[at < maximum for at in range(count)] for maximum in range(count + 1)]
    ends = [[not is_new for is_new in choice] for choice in begins]
    return [*begins, *ends, [at % 2 == 0 for at in range(count)], [at % 2 == 1 for at in range(count)]]
