"""A gateway: stores and reads files over HTTP for clients that know nothing of shards.

`app` joins its rooms, each of which may use those before it: http, resources, auth, bodies, read, write, status.
It stands on `files`, `peers`, `ledger`, `settings` and `service`; `cli` and `deploy` start it."""
