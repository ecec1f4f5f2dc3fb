"""The version, where it can be read without the extension module."""
__version__ = "1.0.0"
