"""Decimals, and sums in the words in which the drivers read and write them."""

from fractions import Fraction

# ---- decimals, each as its units and its scale


def decimal(text):
    whole, _, decimals = text.partition(".")
    return int(whole + decimals), len(decimals)


def exact(number):
    return Fraction(number[0], 10 ** number[1])


def at_scale(value, scale):
    """The units of a fraction, cut towards zero."""
    return int(value * 10**scale)


def rounded(value, scale):
    """The same, rounded half away from zero."""
    units = abs(value) * 10**scale
    return (1 if value > 0 else -1) * int(units + Fraction(1, 2))


NEAR = {"cut": at_scale, "rounded": rounded}

# ---- sums


def read_sum(words):
    """A list of products, each with its sign; a product is a list of factors, each with whether it divides, its own
    sign and its operand. The words are taken from the list up to the closing parenthesis."""
    subtracted, factors, divides, minus, parts = False, [], False, False, []
    while words and words[0] != ")":
        word = words.pop(0)
        if word in "+-":
            parts += [(subtracted, factors)] if factors else []
            subtracted, factors = word == "-", []
        elif word in "*/":
            divides = word == "/"
        elif word == "~":
            minus = True
        else:
            operand = read_sum(words) if word == "(" else word
            if word == "(":
                words.pop(0)
            factors.append((divides, minus, operand))
            divides, minus = False, False
    return parts + [(subtracted, factors)]
