"""Durable shards of walrus over one ledger: nodes, the ledger in etcd, handovers, and the check by the proved core."""
import pathlib

TOP = pathlib.Path(__file__).resolve().parents[4]
