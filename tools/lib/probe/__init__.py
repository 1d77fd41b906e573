"""Which settings fit lanes: `search` finds a lane's Sync words in any bit order, `frames` cuts it into metaframes, `variants` are the
known ways in which a sender's checksums, scrambler and Skip words differ from the profile, `lanes` what fits one lane, `stream` what
fits all of them together, `late` finds lanes that are whole metaframes late, `mends` are the calls that mend lanes, `plan_rows` the plan of it, and `command` the call.
"""
