"""Who may do what at a gateway, and how much: tokens and their rights, rate limits, and shares of what is stored.

It may use `gateway.http`, `files` and `settings`. `app` asks it before each request, and writers charge shares."""
