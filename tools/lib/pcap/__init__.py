"""Captures of other formats as captures that the program takes: `captures` reads them, and `command` is the call."""
