"""The version of the package; the library that it loads has the same first number."""

__version__ = "1.0"
