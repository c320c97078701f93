"""The version of this package, of the library that it goes with, and of its command."""
VERSION = "0.6.0"
