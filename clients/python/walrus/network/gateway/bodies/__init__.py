"""Bodies of requests with several files: a tar or a form, read while it arrives.

It may use `gateway.http` and `files`. Only `gateway.write` takes files from it."""
