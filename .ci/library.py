"""What `.ci/clients` builds of the crate `jelly`: where it is, whether it is older than the sources, and what runs the module."""
import json
import os
import shutil
import subprocess
from importlib.machinery import SourceFileLoader
from importlib.util import module_from_spec, spec_from_loader
from typing import Any, Iterator, Optional

TOP = os.path.dirname(os.path.dirname(os.path.abspath(__file__)))
OUT = os.path.join(TOP, "clients", "out")
MEMORY64 = "--experimental-wasm-memory64"
# What x86-64-v3 has more than x86-64-v2, by the names of /proc/cpuinfo.
V3 = {"avx", "avx2", "bmi1", "bmi2", "f16c", "fma", "abm", "movbe", "xsave"}


def processor() -> str:
    """The level of x86-64 that the processor at hand has, as `rt` names it: at most v3, which any compiler of the kit can compile for."""
    try:
        with open("/proc/cpuinfo", encoding="utf-8") as it:
            flags = next((line.partition(":")[2].split() for line in it if line.startswith("flags")), [])
    except OSError:
        flags = []
    return "x86-64-v3" if V3 <= set(flags) else "x86-64-v2"


def side_by_side() -> Any:
    """The tool that builds crates in folders of their own, as a module: it knows what stands below a crate."""
    loader = SourceFileLoader("side_by_side", os.path.join(TOP, ".ci", "prove_side_by_side"))
    module = module_from_spec(spec_from_loader("side_by_side", loader))
    loader.exec_module(module)
    return module


def sources() -> Iterator[str]:
    """The files from which the library is built, and the clients in C."""
    tool = side_by_side()
    folders = [os.path.join(TOP, "crates", name, "src") for name in ["jelly", *tool.below("jelly", tool.crates()[1])]]
    for folder in [*folders, os.path.join(TOP, "clients", "c")]:
        for place, _, names in os.walk(folder):
            yield from (os.path.join(place, name) for name in names)


def current(*names: str) -> dict[str, str]:
    """Of what was built under these names, the paths of what is there and no older than any source."""
    changed = max(map(os.path.getmtime, sources()))
    paths = {name: os.path.join(OUT, name) for name in names}
    return {name: path for name, path in paths.items() if os.path.exists(path) and os.path.getmtime(path) >= changed}


def node_for(module: str) -> Optional[list[str]]:
    """Node, with the flag that it needs for a module with 64-bit memory; or None if there is no Node that takes one."""
    node = shutil.which("node") or shutil.which("nodejs")
    script = f"WebAssembly.compile(require('fs').readFileSync({json.dumps(module)})).catch(() => process.exit(1))"
    for words in ([node], [node, MEMORY64]) if node else []:
        if subprocess.run([*words, "-e", script], stderr=subprocess.DEVNULL, check=False).returncode == 0:
            return words
    return None
