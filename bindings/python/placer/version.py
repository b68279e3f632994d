"""The package's version, and which versions of the library fit it."""

__version__ = "1.0.0"

_MAJOR, _MINOR = map(int, __version__.split(".")[:2])
NEEDS = f"this package needs {_MAJOR}.{_MINOR} or a later {_MAJOR}.x"


def text(number: int) -> str:
    """Return a version as text that the library tells as one number.

    Examples:
        >>> text(1_002_003)
        '1.2.3'
    """
    return f"{number // 1_000_000}.{number // 1000 % 1000}.{number % 1000}"


def fits(number: int) -> bool:
    """Return whether a library of this version fits: its major version is the package's, its minor version not below the package's.

    Examples:
        >>> [fits(number) for number in (999_999, 1_000_000, 1_000_001, 1_001_000, 2_000_000)]
        [False, True, True, True, False]
    """
    return number // 1_000_000 == _MAJOR and number // 1000 % 1000 >= _MINOR
