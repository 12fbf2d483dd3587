#!/usr/bin/env python3
"""Writes command/stored/gains: whole decibels from -120 to 24 and their factors to six digits.

Usage: compare/decibels.py > command/stored/gains

The factor of d decibels is 10^(d / 20). It is worked out over whole numbers, with no float: n / 10^k is the factor to k
decimals where its twentieth power lies between those of (n - 1/2) / 10^k and (n + 1/2) / 10^k. None is a tie.
"""


def rounded(d, k):
    """The whole number nearest 10^(d / 20) * 10^k."""
    up, down = (10**d, 1) if d >= 0 else (1, 10**-d)
    want = up * (2 * 10**k) ** 20
    low, high = 0, 10**9
    while low < high:  # the least n with (2n + 1)^20 above it
        n = (low + high) // 2
        if (2 * n + 1) ** 20 * down > want:
            high = n
        else:
            low = n + 1
    return low


for d in range(-120, 25):
    k = 4
    while rounded(d, k) < 100000:
        k += 1
    n = rounded(d, k)
    assert 100000 <= n < 1000000
    print(f"{d} {n // 10**k}.{n % 10**k:0{k}}")
