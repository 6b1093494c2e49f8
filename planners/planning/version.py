"""The version of the program, of this package and of all that is packed, and its date: said here alone."""

VERSION = "1.0.0"
DATE = "2026-12-01"
