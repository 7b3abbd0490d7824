"""A recorder: checks posted entries by the rules of the ledger, appends them to etcd, and serves them in order.

It may use `ledger`, `settings` and `service`, and it alone talks to etcd. Only `cli` starts it."""
