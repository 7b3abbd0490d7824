"""What clients of a gateway share, and how it is divided fairly: turns, memory, room on the disk, and the cache.

It may use `gateway.http`. Whatever a gateway reads or writes holds a share of these meanwhile."""
