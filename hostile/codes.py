"""The erasure code of walrus, over the field of 65,536 words, as far as judging answers needs it."""
import functools
from collections.abc import Mapping, Sequence

POLYNOMIAL, WORDS = 0x1100B, 1 << 16


def powers_of_two() -> list[int]:
    """Return the powers of the word 2, which are all words except zero."""
    powers, power = [], 1
    for _ in range(WORDS - 1):
        powers.append(power)
        power = power << 1 ^ (POLYNOMIAL if power & 0x8000 else 0)
    return powers


POWERS = powers_of_two()
LOGARITHMS = {power: exponent for exponent, power in enumerate(POWERS)}


def times(left: int, right: int) -> int:
    if not left or not right:
        return 0
    return POWERS[(LOGARITHMS[left] + LOGARITHMS[right]) % (WORDS - 1)]


def inverse(word: int) -> int:
    return POWERS[-LOGARITHMS[word] % (WORDS - 1)]


@functools.lru_cache(maxsize=4096)
def coefficients(known: tuple[int, ...], wanted: int) -> tuple[int, ...]:
    """Return the coefficient of each known place of a codeword for the wanted place."""
    found = []
    for place in known:
        product = 1
        for other in known:
            if other != place:
                product = times(product, times(wanted ^ other, inverse(place ^ other)))
        found.append(product)
    return tuple(found)


def symbol_at(known: Mapping[int, bytes], wanted: int) -> bytes:
    """Return the symbol at a place of the codeword that has these symbols, as many as its dimension."""
    if wanted in known:
        return known[wanted]
    total = [0] * (len(next(iter(known.values()))) // 2)
    for scale, symbol in zip(coefficients(tuple(known), wanted), known.values()):
        for place in range(len(total)):
            total[place] ^= times(scale, symbol[2 * place] << 8 | symbol[2 * place + 1])
    return b"".join(word.to_bytes(2, "big") for word in total)


def extended(symbols: Sequence[bytes], count: int) -> list[bytes]:
    """Return the codeword of `count` symbols that begins with these."""
    known = dict(enumerate(symbols))
    return [symbol_at(known, place) for place in range(count)]
