"""The ledger: the form of entries, the rules by which they make a state, and how followers hear them in order.

It may use `service` alone; who writes the entries down is the business of `recorder`. All rooms above ask its state."""
