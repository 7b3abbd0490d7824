"""What the tests share: networks, gateways, shards and machines to be tried. It says where walrus is."""
import pathlib
import sys

TOP = pathlib.Path(__file__).resolve().parents[3]
sys.path[:0] = [it for it in (str(TOP / "clients" / "python"), str(TOP / "network" / "benches")) if it not in sys.path]
