"""How a gateway reads: files whole or in ranges from verified blobs, folders by their manifests, and lists of blobs.

It may use `gateway.auth`, `gateway.resources`, `gateway.http`, `files` and `peers`. `write` and `app` use it."""
