"""Each room of the Python packages imports from those below it alone, and says what it is: python3 -m unittest."""
import ast
import pathlib
import re
import unittest

PYTHON = pathlib.Path(__file__).resolve().parents[1] / "clients" / "python"
LAYERS = """
walrus.engines
walrus.format
walrus.wire
walrus.client
walrus.bundles walrus.calls walrus.loop walrus.serving
walrus.audit walrus.files walrus.front walrus.images walrus.refill
walrus
walrus.network.service
walrus.network.settings
walrus.network.ledger
walrus.network.recorder
walrus.network.peers
walrus.network.node.disk
walrus.network.node
walrus.network.files
walrus.network.gateway.http
walrus.network.gateway.resources
walrus.network.gateway.auth
walrus.network.gateway.bodies
walrus.network.gateway.read
walrus.network.gateway.write
walrus.network.gateway.status
walrus.network.gateway
walrus.network.deploy
walrus.network.cli
""".split(
    "\n"
)[
    1:-1
]  # from the bottom to the top; what stands in one line may import each other
PLACES = {name: number for number, line in enumerate(LAYERS) for name in line.split()}
FILES = {
    ".".join(it.relative_to(PYTHON).with_suffix("").parts).removesuffix(".__init__"): it
    for it in PYTHON.glob("walrus/**/*.py")
}


def place_of(module: str) -> int:
    """The layer of a module, which is that of the nearest room around it."""
    while module not in PLACES:
        module = module.rpartition(".")[0]
    return PLACES[module]


def imports_of(module: str) -> list[str]:
    """The modules of walrus that a module imports, wherever in it."""
    path, found = FILES[module], list[str]()
    package = module if path.name == "__init__.py" else module.rpartition(".")[0]
    for node in ast.walk(ast.parse(path.read_text())):
        if isinstance(node, ast.ImportFrom):
            above = package.split(".")[: len(package.split(".")) - node.level + 1] if node.level else []
            base = ".".join([*above, *([node.module] if node.module else [])])
            found += [it if (it := f"{base}.{alias.name}") in FILES else base for alias in node.names]
        elif isinstance(node, ast.Import):
            found += [alias.name for alias in node.names]
    return [it for it in found if it.partition(".")[0] == "walrus" and it != "walrus.network"]


class Rooms(unittest.TestCase):
    def test_imports_go_downward(self) -> None:
        upward = [
            f"{module} imports {other}"
            for module in FILES
            if not module.endswith("__main__") and module != "walrus.network"
            for other in imports_of(module)
            if place_of(other) > place_of(module)
        ]
        self.assertEqual(upward, [])

    def test_each_room_says_what_it_is(self) -> None:
        for module, path in FILES.items():
            if path.name == "__init__.py":
                text = ast.get_docstring(ast.parse(path.read_text())) or ""
                self.assertGreaterEqual(text.count("."), 1, f"{module} does not say what it is")

    def test_the_map_has_each_room_in_its_order(self) -> None:
        page = (PYTHON.parents[1] / "network" / "README.md").read_text().partition("| Room |")[2].partition("\n\n")[0]
        rooms = [it for it in " ".join(LAYERS).split() if it.startswith("walrus.network.")]
        shown = [it.replace("/", ".") for it in re.findall(r"(?m)^\| `([a-z/]+)/` \|", page)]
        self.assertEqual(shown, [it.removeprefix("walrus.network.") for it in rooms])


if __name__ == "__main__":
    unittest.main()
