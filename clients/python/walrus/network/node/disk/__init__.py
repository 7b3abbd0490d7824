"""What a node keeps on its disk: a database with group commit, and large contents in files beside it.

It may use `service`, and names parts as `peers` does; it asks neither ledger nor judge. Only `node` uses it."""
