"""Spans, packets, damage, faults and events by slots, lanes and bits: `command` has the call, `run` what is there of a run, and `rows` the
tables."""
