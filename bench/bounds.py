"""Bounds: what a figure is to be at most, and where there is one, what is aimed for."""


def met(figure, most):
    """As printed, with two digits behind the point: what reads as equal is equal."""
    return round(figure, 2) <= most


def counted(figure, most):
    """A bound on bytes, with whether it is met."""
    return f"at most {most:,}, {'met' if figure <= most else 'NOT MET'}"


def said(figure, most, aim=None):
    """A bound beside its figure: one that isn't met is marked."""
    words = f"{most:.2f}, {'met' if met(figure, most) else 'NOT MET'}"
    if aim is None:
        return words
    return f"{words}; aim {aim:.2f}, {'met' if met(figure, aim) else 'not met'}"
