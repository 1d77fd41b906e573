"""Two captures, or two words files, side by side: `records` reads them, `alignment` finds what is equal in order, `differences` says
what is not, and `command` has the call.
"""
