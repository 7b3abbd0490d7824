"""Engines that run the proved commands: the library in this process, or the program `walrus` in a process of its own.

They use nothing of the other rooms. `walrus` itself and the client of shards call them."""
