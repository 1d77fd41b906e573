"""Dumps of a device's lanes, and lane files: `options` are the words of a call, `texts` reads dumps of text, `bits` has words of bits
in their orders, `recipes` and `tables` read tables by named columns, `vcd` reads value change dumps, `imports` and `exports` are the two ways, `outputs` the files that are written, and
`command` the call. `adapt` makes lanes of the profile out of lanes of another convention: `metaframes` finds
their metaframes, `adapt_stream` takes those of all lanes together, and `adapt_options` are the words of that call.
"""
