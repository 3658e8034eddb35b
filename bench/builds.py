"""What the commands of this folder share: copies and builds of the port and of the Rust crate, in a folder of their own."""
import os
import pathlib
import re
import shutil
import subprocess
import sys
import tempfile

sys.dont_write_bytecode = True
HERE = pathlib.Path(__file__).resolve().parent
TOP = HERE.parent
ROOM = pathlib.Path(os.environ.get("BENCH_ROOM", pathlib.Path(tempfile.gettempdir(), "qoi-bench")))
CRATE = os.environ.get("QOI_CRATE")
BEFORE = os.environ.get("BEFORE")
SHIFTS = (16, 32, 48, 64)

# Cargo takes the crate's dependency from Debian's package, and asks no registry.
CARGO_CONFIG = """[source.crates-io]
replace-with = "debian"
[source.debian]
directory = "/usr/share/cargo/registry"
"""
MANIFEST = """[package]
name = "{name}"
version = "0.1.0"
edition = "2021"
[dependencies]
qoi = {{ path = "{crate}", features = {features} }}
[profile.release]
lto = "fat"
codegen-units = 1
{more}"""


def run(*command, **options):
    """Runs a command, and ends with what it said if it fails."""
    ran = subprocess.run(command, capture_output=True, text=True, **options)
    if ran.returncode:
        sys.exit(f"{' '.join(map(str, command))}\n{ran.stdout}{ran.stderr}")
    return ran.stdout


def packages(*names):
    """Installs those of Debian's packages that aren't there."""
    missing = [it for it in names if subprocess.run(["dpkg", "-s", it], capture_output=True).returncode]
    if missing:
        run("apt-get", "update", "-q")
        run("apt-get", "install", "-y", "-q", "--no-install-recommends", *missing)


def version(package):
    return run("dpkg-query", "-W", "-f", "${Version}", package)


def here(command):
    """What is timed, and where."""
    commit = run("git", "-C", TOP, "describe", "--always", "--dirty").strip()
    processors = re.findall(r"model name\s*: (.*)", pathlib.Path("/proc/cpuinfo").read_text()) or ["unknown"]
    return f"{command} at {commit}, {run('rt', 'version').strip()}, on {len(processors)} x {processors[0]}"


def kit():
    """The folder of the toolchain."""
    return pathlib.Path(run("rt", "doc").strip()).parent


def port(name, kind, source, uses="", top=TOP, root=ROOM / "port"):
    """A crate over a copy of the library, with this source: its folder. What rt proved of an earlier copy is kept."""
    for folder in ("src", "specs", "proofs"):
        shutil.rmtree(root / "crates/qoi" / folder, ignore_errors=True)
        shutil.copytree(top / "crates/qoi" / folder, root / "crates/qoi" / folder)
    (root / "crates" / name / "src").mkdir(parents=True, exist_ok=True)
    shutil.copy(top / "bench" / source, root / "crates" / name / "src" / ("main.rt" if kind == "" else "lib.rt"))
    (root / "crates.txt").write_text(f"qoi:\n{name}{kind}: qoi {uses}\n")
    run("git", "init", "-q", ".", cwd=root)
    return root / "crates" / name


def entries(top=TOP, root=ROOM / "port"):
    """The static library of the calls that bench.c times."""
    library = port("qoi_bench", " staticlib", "entries.rt.txt", top=top, root=root)
    run("rt", "lib", cwd=library)
    return library / "out/libqoi_bench.a"


def size_of(library):
    """How many bytes of code and constants a static library has."""
    return int(run("size", "-t", library).splitlines()[-1].split()[0])


def before():
    """The same of the commit that BEFORE names. Its calls are named before_.. and not port_.."""
    root = ROOM / "before"
    shutil.rmtree(root / "tree", ignore_errors=True)
    (root / "tree").mkdir(parents=True)
    run("git", "-C", TOP, "archive", "-o", root / "tree.tar", BEFORE, "bench", "crates/qoi")
    run("tar", "-x", "-f", root / "tree.tar", "-C", root / "tree")
    built, to = entries(root / "tree", root), root / "before.a"
    names = re.findall(r"fn port_(\w+)", (root / "tree/bench/entries.rt.txt").read_text())
    run("objcopy", *(f"--redefine-sym=port_{it}=before_{it}" for it in names), built, to)
    return to


def peer(name, source, more, features=("reference",)):
    """Builds a program or a library over the named Rust crate: the folder with what was built."""
    packages("librust-bytemuck-dev")
    root = ROOM / name
    (root / "src").mkdir(parents=True, exist_ok=True)
    (root / ".cargo").mkdir(exist_ok=True)
    (root / ".cargo/config.toml").write_text(CARGO_CONFIG)
    crate = pathlib.Path(CRATE).resolve()
    (root / "Cargo.toml").write_text(MANIFEST.format(name=name, crate=crate, features=list(features), more=more))
    shutil.copy(HERE / source, root / "src" / ("lib.rs" if "[lib]" in more else "main.rs"))
    run("cargo", "build", "--release", "--offline", cwd=root)
    return root / "target/release"
