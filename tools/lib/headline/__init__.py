"""A clause of a public function with every definition that it reaches.

`items` reads the definitions of crates, `names` says what a name in them means, `clauses` reads those of a function, `reached` follows
the names, `rules` finds the rule of a definition in docs/DEFINITIONS.md, `words` has what signs and words of the kit mean, and `texts` and
`pages` write what was found.
"""
