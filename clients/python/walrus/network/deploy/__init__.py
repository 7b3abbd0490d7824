"""Networks and their machines: founding one, checking a machine, running one here, and beginning its epochs.

It may use everything but `cli`. Operators use it by the commands, and tests to have a network."""
