"""How a gateway stores: files piece by piece, bundles, folders, and uploads that go on after a break.

It may use all rooms of the gateway but `status`. `app` uses it."""
