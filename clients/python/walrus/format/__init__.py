"""The bytes of docs/FORMATS.md: envelopes, frames, their kinds, and the lengths that follow from f.

It may use `walrus.engines` alone, whose buffers it cuts. Whoever speaks to shards reads and writes frames by it."""
