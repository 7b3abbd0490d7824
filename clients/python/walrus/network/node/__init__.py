"""A node: serves the shards that it owns, keeps their parts, and follows the ledger through handovers.

It may use `peers`, `ledger`, `settings`, `service` and its own `disk`. Only `cli` starts it; `progress` also
tells others how far a node is."""
