"""What the tools read: the files of a plan as the program takes them and writes them, and what stands in them.

`files` has folders, rows, words files and captures; `plans` plans, schedules and settings of two ends; `kinds` what a file is;
`lane_bits` the lanes by their bits; `lane_words` a lane as the receiver reads it, and `metaframes` what a declared lock makes of its
words; `words` the stream of a words file and its fault spans; `control_words` their fields, and `checksums` the CRC24 and the CRC32; `conventions` how senders differ in these; `lane_names` the order of files by their names;
`strikes` what the rows of a schedule strike; `placing` where the words of a stream stand in lanes; `outputs` what each command writes, and
`apart` runs of the program that change no file of the user's; `agreement` whether all are of one run; `ending` how each tool reads its
words, and ends.
"""
