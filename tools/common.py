"""What the tools share: the crates, what a tool needs, how it stops, and the two programs that settle a month.

A tool that cannot go on stops with one line, which says why and names the command to look at.
"""
import os
import re
import shutil
import subprocess
import sys

ROOT = os.path.dirname(os.path.dirname(os.path.abspath(__file__)))
TARGET = os.path.join(ROOT, "target")
SETTLE = os.path.join(ROOT, "crates", "settle", "out", "settle")
NEEDED = {"rt": "no Rattle kit", "cargo": "no Rust"}


def stop(why, look=""):
    name = os.path.basename(sys.argv[0])
    sys.exit(f"{name}: {why}" + (f"; look at: {look}" if look else ""))


def need(*programs):
    for program in programs:
        if not shutil.which(program):
            stop(f"{NEEDED.get(program, f'no {program}')}: `{program}` is not on the path", f"command -v {program}")


def in_target(name):
    """A path in target/, which is made if it is not there: git knows that folder as one to leave out."""
    os.makedirs(TARGET, exist_ok=True)
    return os.path.join(TARGET, name)


def read(path, missing=b""):
    """The bytes of a file, or what stands for them where there is none."""
    try:
        with open(path, "rb") as file:
            return file.read()
    except FileNotFoundError:
        return missing


def crates_listed():
    """The crates of crates.txt in their order, each with the crates of the repository that it stands on."""
    with open(os.path.join(ROOT, "crates.txt"), encoding="utf-8") as file:
        rows = [row.split("#")[0].strip() for row in file]
    stands = {row.split(":")[0].split()[0]: row.partition(":")[2].split() for row in rows if row}
    return {crate: [below for below in on if below in stands] for crate, on in stands.items()}


def crates_above(crate):
    """The crates that stand on this one, straight or through others, in the order of crates.txt."""
    stands, above = crates_listed(), {crate}
    while True:
        more = {it for it, on in stands.items() if above & set(on)} - above
        if not more:
            return [it for it in stands if it in above and it != crate]
        above |= more


def edits_of(folder):
    """The names of the edits of a folder, in the order in which the gate numbers them."""
    return sorted(name for name in os.listdir(folder) if name.endswith(".edit")) if os.path.isdir(folder) else []


def stop_unbuilt(crate, said):
    """Stops for what `rt` said of a crate that it did not prove, or did not build."""
    below = re.search(r"^rt: the library (\w+) did not build", said, re.M)
    crate = below.group(1) if below else crate
    if below or "logic=not-proved" in said:
        stop(f"{crate} is not proved", f"(cd crates/{crate} && rt check)")
    stop(f"{crate} could not be built", f"(cd crates/{crate} && rt check)")


def build_settle():
    """Proves `settle` and builds it by LLVM, settles its worked example, and returns the processor that it is built for.

    The backend is named, since `rt run --backend rattle` leaves a slower program under the same name, and since `rt`
    then builds even where nothing has changed. The verdict tells the processor (x86-64-v2 by default), or none for plain x86-64.
    """
    folder = os.path.join(ROOT, "crates", "settle")
    words = ["rt", "run", "--backend", "llvm"]
    done = subprocess.run(words, cwd=folder, input=read(os.path.join(folder, "stdin")), capture_output=True)
    said = done.stderr.decode("utf-8", "replace")
    if "rt: running out/settle" not in said:
        stop_unbuilt("settle", said)
    if done.returncode != 0 or done.stdout != read(os.path.join(folder, "stdout")):
        stop("settle is built, but does not print what its worked example must", "(cd crates/settle && rt run < stdin | diff stdout -)")
    cpu = re.search(r"^logic=proved .*\bcpu=(\S+)", said, re.M)
    return cpu.group(1) if cpu else "x86-64"


def build_reference(cpu):
    """Builds the reference for a processor, in a folder of its own, and returns the folder with its programs."""
    target = os.path.join("target", f"reference-{cpu}")
    given = {"RUSTFLAGS": f"-C target-cpu={cpu}", "CARGO_TARGET_DIR": target}
    words = ["cargo", "build", "--quiet", "--release", "--offline", "--manifest-path", "reference/Cargo.toml"]
    env = {name: value for name, value in os.environ.items() if name not in ("CARGO_ENCODED_RUSTFLAGS", "CARGO_BUILD_TARGET")}
    if subprocess.run(words, cwd=ROOT, env={**env, **given}, capture_output=True).returncode != 0:
        shown = " ".join(f"{name}='{value}'" for name, value in given.items())
        stop("the reference could not be built", f"{shown} {' '.join(words)}")
    return os.path.join(ROOT, target, "release")
