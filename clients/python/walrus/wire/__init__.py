"""Connections that carry envelopes: both ends of one, memory for large payloads, and a port with its bounds.

It may use `walrus.format` and `walrus.engines`. The client of shards, the front and the network's nodes stand on it."""
