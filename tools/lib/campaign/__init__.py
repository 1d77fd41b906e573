"""Campaigns: the program is run for each number of a range, and what came of each is kept, counted and reported.

`command` has the call, and `parallel` how GNU parallel is given the work; `one_number` is what it runs for each number, with
`schedules`, the damage that is drawn, and `coverage`, what is counted, and `each` the run of one with a command of the user's; `records` keeps what came of each number, and `reports` makes
the table, the counts, the JUnit report and the summary of it.
"""
