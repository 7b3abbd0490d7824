"""What a gateway tells of the network: nodes, the health of each blob, and metrics.

It may use `gateway.read` and the rooms that it stands on, and words of `node` for the progress
of nodes. `app` shows it as a page and as JSON."""
