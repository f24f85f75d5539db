"""Bytes of a file, as runs: a list of (first byte, last byte, value) that rise and don't touch with one value."""

END = 2**63 - 1


def cut(runs, lo, hi):
    """The runs without the bytes from lo to hi."""
    left = []
    for a, b, value in runs:
        if b < lo or a > hi:
            left.append((a, b, value))
            continue
        if a < lo:
            left.append((a, lo - 1, value))
        if b > hi:
            left.append((hi + 1, b, value))
    return left


def joined(runs):
    """The runs in order, those that touch with one value as one."""
    whole = []
    for a, b, value in sorted(runs):
        if whole and whole[-1][1] + 1 == a and whole[-1][2] == value:
            whole[-1] = (whole[-1][0], b, value)
        else:
            whole.append((a, b, value))
    return whole


def put(runs, lo, hi, value):
    """The runs with the bytes from lo to hi set to the value, or to none."""
    left = cut(runs, lo, hi)
    return joined(left + [(lo, hi, value)] if value else left)


def segment(start, length):
    """The first and the last byte of `struct flock`."""
    if length > 0:
        return start, start + length - 1
    return (start, END) if length == 0 else (start + length, start - 1)
