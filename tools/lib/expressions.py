"""Expressions in words. An expression is its constant and its coefficients, one per allowance."""


def negated(numbers):
    return tuple(-number for number in numbers)


def value(numbers, setting):
    """Constant + sum of coefficient x allowance."""
    return numbers[0] + sum(k * x for k, x in zip(numbers[1:], setting))


def in_words(numbers, names):
    """Such as 2p - q + 5. Terms with a plus come first, and so does the constant if no other has one."""
    terms = positive_first([(k, name) for k, name in zip(numbers[1:], names) if k])
    constant = [(numbers[0], "")] if numbers[0] else []
    if terms and terms[0][0] < 0 < numbers[0]:
        return joined(constant + terms)
    return joined(terms + constant)


def positive_first(terms):
    return sorted(terms, key=lambda term: term[0] < 0)


def joined(terms):
    """Terms, each a number other than 0 with a name or none, as one sum."""
    text = ""
    for number, name in terms:
        sign = "-" if number < 0 else "+"
        size = "" if name and abs(number) == 1 else str(abs(number))
        if text:
            text += f" {sign} {size}{name}"
        else:
            text = ("-" if number < 0 else "") + size + name
    return text or "0"
