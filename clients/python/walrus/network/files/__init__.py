"""Files and folders as blobs: lists of pieces, manifests, packs, identifiers, and paths that are safe to write.

It may use the client library and `service`, and speaks to nobody. Gateways and the commands share it."""
