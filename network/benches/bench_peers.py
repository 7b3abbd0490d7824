"""What a gateway is measured beside: nginx, with one copy of a file, and OpenStack Swift with erasure coding 2+2."""
import asyncio
import contextlib
import pathlib
import shutil
import subprocess
import time
from typing import AsyncIterator

import aiohttp

from walrus.network.deploy.local import Local, free_port

NGINX = """daemon off;
user root root;
pid nginx.pid;
worker_processes 1;
events {{ worker_connections 512; }}
http {{
    access_log off;
    sendfile on;
    client_max_body_size 0;
    client_body_temp_path temp; proxy_temp_path temp; fastcgi_temp_path temp; uwsgi_temp_path temp; scgi_temp_path temp;
    server {{ listen 127.0.0.1:{port}; root {folder}/www; dav_methods PUT; }}
}}
"""
SWIFT = [f"swift-{kind}-server" for kind in ("proxy", "account", "container", "object")] + ["memcached"]
POLICY = """[swift-hash]
swift_hash_path_suffix = bench
[storage-policy:0]
name = one
default = yes
[storage-policy:1]
name = coded
policy_type = erasure_coding
ec_type = liberasurecode_rs_vand
ec_num_data_fragments = 2
ec_num_parity_fragments = 2
"""
SERVER = """[DEFAULT]
bind_ip = 127.0.0.1
bind_port = {port}
workers = {workers}
user = root
devices = {folder}/devices
mount_check = false
log_level = ERROR
[pipeline:main]
pipeline = {pipeline}
[app:{kind}-server]
use = egg:swift#{kind}
account_autocreate = true
allow_account_management = true
[filter:cache]
use = egg:swift#memcache
memcache_servers = 127.0.0.1:{memory}
[filter:catch_errors]
use = egg:swift#catch_errors
"""


async def listens(port: int) -> None:
    """Waits until somebody listens at a port."""
    async with asyncio.timeout(60):
        while True:
            with contextlib.suppress(OSError):
                (await asyncio.open_connection("127.0.0.1", port))[1].close()
                return
            await asyncio.sleep(0.1)


@contextlib.asynccontextmanager
async def nginx(local: Local) -> AsyncIterator[str]:
    """The URL of an nginx of its own, which keeps what is put in the folder `www`."""
    port, folder = free_port(), local.folder
    for name in ("www", "temp"):
        (folder / name).mkdir(exist_ok=True)
    (folder / "nginx.conf").write_text(NGINX.format(port=port, folder=folder))
    await local.spawn("nginx", shutil.which("nginx") or "", "-p", str(folder), "-c", "nginx.conf", "-e", "nginx.log")
    await listens(port)
    yield f"http://127.0.0.1:{port}"
    await local.end("nginx")


def ring(folder: pathlib.Path, name: str, replicas: int, ports: list[int]) -> None:
    """Makes a ring of one device at each port."""
    devices = [word for it, port in enumerate(ports) for word in (f"r1z{it}-127.0.0.1:{port}/d{it}", "1")]
    for step in (["create", "4", str(replicas), "0"], ["add", *devices], ["rebalance"]):
        ran = subprocess.run(["swift-ring-builder", f"{name}.builder", *step], cwd=folder, stdout=subprocess.PIPE)
        if ran.returncode > 1:  # 1 is a warning
            raise RuntimeError(f"swift-ring-builder {step[0]}: {ran.stdout.decode(errors='replace')[-500:]}")


@contextlib.asynccontextmanager
async def swift(local: Local) -> AsyncIterator[str]:
    """The URL of a container of a Swift of its own: four workers of the proxy, two of each of four object servers."""
    folder = local.folder / "swift"
    folder.mkdir()
    memory, proxy, ports = free_port(), free_port(), [free_port() for _ in range(6)]
    for number in range(4):
        (folder / "devices" / f"d{number}").mkdir(parents=True)
    (folder / "swift.conf").write_text(POLICY)
    ring(folder, "account", 1, ports[4:5])
    ring(folder, "container", 1, ports[5:])
    ring(folder, "object", 1, ports[:1])
    ring(folder, "object-1", 4, ports[:4])
    await local.spawn("memcached", "memcached", "-u", "root", "-l", "127.0.0.1", "-p", str(memory))
    servers = [("object", port, 2) for port in ports[:4]] + [("account", ports[4], 1), ("container", ports[5], 1)]
    for kind, port, workers in [*servers, ("proxy", proxy, 4)]:
        path, pipeline = folder / f"{kind}-{port}.conf", "catch_errors cache proxy-server" if kind == "proxy" else ""
        words = {"port": port, "workers": workers, "folder": folder, "kind": kind, "memory": memory}
        path.write_text(SERVER.format(**words, pipeline=pipeline or f"{kind}-server"))
        own = f"mount --bind {folder} /etc/swift && exec swift-{kind}-server /etc/swift/{path.name}"
        await local.spawn(f"swift-{kind}-{port}", "unshare", "-m", "sh", "-c", own)
        await listens(port)
    url = f"http://127.0.0.1:{proxy}/v1/AUTH_bench/coded"
    async with aiohttp.ClientSession() as session:
        async with session.put(url, headers={"X-Storage-Policy": "coded"}) as said:
            said.raise_for_status()
        async with session.put(f"{url}/first", data=bytes(900_000)) as said:
            said.raise_for_status()
    await asyncio.sleep(0.5)
    sizes = [it.stat().st_size for it in (folder / "devices").glob("d*/objects-1/**/*.data")]
    if len(sizes) < 3 or not all(400_000 < size < 600_000 for size in sizes):
        raise RuntimeError(f"Swift has no fragments of half the file's length: {sizes}")
    yield url
    for name in [it for it in local.processes if it.startswith("swift-") or it == "memcached"]:
        await local.end(name)


async def moves(session: aiohttp.ClientSession, url: str, name: str, data: bytes) -> tuple[float, float]:
    """Seconds for a file in and out."""
    start = time.monotonic()
    async with session.put(f"{url}/{name}", data=data) as said:
        said.raise_for_status()
    half = time.monotonic()
    async with session.get(f"{url}/{name}") as said:
        said.raise_for_status()
        size = sum([len(part) async for part in said.content.iter_any()])
    if size != len(data):
        raise RuntimeError(f"{url}/{name} has {size} bytes of {len(data)}")
    return half - start, time.monotonic() - half
