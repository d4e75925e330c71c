"""What the enumerations have in common."""


class Named:
    """str() and format() give the name on every version of Python, where their own texts differ from version to version. A format for
    numbers, such as `d` or `x`, gives the number."""

    def __str__(self) -> str:
        return self.name

    def __format__(self, spec: str) -> str:
        try:
            return format(str(self), spec)
        except ValueError:  # no format for texts
            return format(int(self), spec)
