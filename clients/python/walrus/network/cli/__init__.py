"""The commands of walrus-net: for people who store and fetch files at a gateway, and for operators.

It may use every room, and none uses it. A gateway is not trusted: what it says is checked here."""
