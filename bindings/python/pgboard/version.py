"""The version of this package, which is its library's."""

__version__ = "0.1.0"
