"""Other participants, seen from one of them: shards at nodes, the ledger, and the engine that encodes and reads.

It may use `ledger` and `service`. Nodes recover from peers by it, and gateways and operators store and read."""
