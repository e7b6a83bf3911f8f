"""The limits of a plan (document 01, "The product", the paragraph "Limits"; the moduli by slip 10, the
owners by slip 4).

    is_modulus   a prime from 2 to 4,294,967,291
"""

from functools import lru_cache

GREATEST_MODULUS = 4_294_967_291
GREATEST_SIZE = 2_048
GREATEST_ENTRIES = 16_384
GREATEST_TEXT = 65_536
LEAST_VALUE = -2_147_483_648
GREATEST_VALUE = 2_147_483_647
GREATEST_OWNER = 255
UNSTATED_OWNER = 1


@lru_cache(maxsize=4_096)
def is_modulus(p):
    """Whether p is a prime within its range, by trial division; the largest takes
    milliseconds, and few moduli come again and again."""
    if not 2 <= p <= GREATEST_MODULUS:
        return False
    divisor = 2
    while divisor * divisor <= p:
        if p % divisor == 0:
            return False
        divisor += 1
    return True
