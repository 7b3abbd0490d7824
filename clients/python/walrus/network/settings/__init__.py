"""The settings with which services start: a dataclass for each service, and how a file of them is read and checked.

It uses nothing else of the network. The services read their own, and `deploy` writes and checks the files."""
