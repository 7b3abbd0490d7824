"""What every service of the network stands on: names, keys, a database, connections, metrics, and systemd.

It may use the client library, and nothing else of the network. All other rooms of the network use it."""
