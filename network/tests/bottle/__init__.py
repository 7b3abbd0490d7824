"""A network in a bottle: recorders, nodes and clients, the very classes, on a loop whose clock, connections and threads
are simulated and drawn from a seed. It stands on asyncio and on the network's packages, and only tests use it."""
