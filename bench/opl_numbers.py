"""Numbers as OPL has them."""


def decimal(units):
    """A coordinate of so many units of 1e-7 degree."""
    sign = "-" if units < 0 else ""
    whole, rest = divmod(abs(units), 10_000_000)
    fraction = f".{rest:07d}".rstrip("0") if rest else ""
    return f"{sign}{whole}{fraction}"
