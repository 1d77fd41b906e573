"""What a plan's lanes have that they should not: one table in order of bit, what is common to its rows, and a page of it.

`starts` finds where the metaframes of lanes begin, `lead_in` puts a lead-in before them, and `runs` has the program read these lanes apart
from the user's files; `judged` says how much that is; `findings` is what a row is, and the table; `events` and `faults` are
the rows of `inspect` and `check`, with what was expected and found, which `frames` reads of metaframes; `pieces` finds the packets that
are dropped, `hidden` those whose first words are lost, and `lost` makes the rows of spans, drops and missing packets; `following` says which row follows from which; `causes` and
`calendars` say what is common to many; `page` and `zoom` are the page and its pictures, and `command` is the call.
"""
