"""What a gateway says in HTTP: errors, ranges of bytes, digests in headers, and the access log.

It may use `peers` and `ledger`, for the errors that come from there, and `files`. All other rooms of the gateway use
it."""
