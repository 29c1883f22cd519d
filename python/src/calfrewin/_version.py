"""The version, in a file of its own: a build reads it without the library."""
__version__ = "0.1.0"
