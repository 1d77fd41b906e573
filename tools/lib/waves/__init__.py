"""Waves of lanes and of their stream, as a VCD file: `signals` has the signals, `vcd` the file, and `command` the call."""
