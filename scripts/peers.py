#!/usr/bin/env python3
"""peers.py: builds the program of peers/, which measures maps and channels of Rust's own crates, over Debian's packages of these, and
prints its path. Where cargo or a package is missing it says so on standard error, and ends with status 1. Nothing is fetched."""
import glob, os, re, shutil, subprocess, sys

if __name__ == "__main__":
    sys.dont_write_bytecode = True
    sys.path.insert(0, os.path.dirname(os.path.dirname(os.path.realpath(__file__))))
from scripts import top

# Where Debian's packages put the sources of crates.
SOURCES = "/usr/share/cargo/registry"
PACKAGES = tuple("librust-%s-dev" % name for name in ("arc-swap", "crossbeam-channel", "dashmap", "im-rc", "libc", "parking-lot", "tokio"))
FOLDER = os.path.join(top, "peers")
# It is built in a folder of its own, since cargo writes beside what it builds.
BUILT = os.path.join(FOLDER, "out")
PROGRAM = os.path.join(BUILT, "target", "release", "peers")


class Missing(Exception):
    """Why there is no such program, in one sentence."""


def copied(path: str, to: str) -> None:
    shutil.rmtree(to, ignore_errors=True)
    shutil.copytree(path, to)


def renamed(path: str) -> None:
    """Gives the sources of im-rc the name im: by that its build counts owners across threads."""
    manifest = os.path.join(path, "Cargo.toml")
    with open(manifest, encoding="utf-8") as file:
        text = file.read()
    was = os.stat(manifest)
    with open(manifest, "w", encoding="utf-8") as file:
        file.write(re.sub(r'^name = "im-rc"$', 'name = "im"', text, flags=re.M))
    # By its times cargo sees that nothing has changed.
    os.utime(manifest, ns=(was.st_atime_ns, was.st_mtime_ns))
    # With other sources the sums of Debian's package are wrong.
    os.remove(os.path.join(path, ".cargo-checksum.json"))


def laid_out() -> None:
    found = sorted(glob.glob(os.path.join(SOURCES, "im-rc-15.*")))
    if not found:
        raise Missing("there are no sources of im: apt-get install " + " ".join(PACKAGES))
    os.makedirs(BUILT, exist_ok=True)
    shutil.copy2(os.path.join(FOLDER, "Cargo.toml"), BUILT)
    copied(os.path.join(FOLDER, "src"), os.path.join(BUILT, "src"))
    copied(found[-1], os.path.join(BUILT, "im"))
    renamed(os.path.join(BUILT, "im"))


def config(name: str, value: str) -> list[str]:
    return ["--config", "%s = '%s'" % (name, value)]


def built() -> str:
    """The path of the program, built from the sources as they are now."""
    if shutil.which("cargo") is None:
        raise Missing("there is no cargo: apt-get install cargo")
    laid_out()
    words = ["cargo", "build", "--release", "--offline", "--quiet", "--target-dir", os.path.join(BUILT, "target")]
    words += [*config("source.crates-io.replace-with", "packages"), *config("source.packages.directory", SOURCES)]
    done = subprocess.run(words, cwd=BUILT, stdin=subprocess.DEVNULL, capture_output=True, text=True)
    if done.returncode != 0:
        last = next((line for line in done.stderr.splitlines() if line.startswith("error")), "cargo failed")
        raise Missing("cargo builds no program of peers/ (%s): apt-get install %s" % (last, " ".join(PACKAGES)))
    return PROGRAM


def main() -> None:
    try:
        print(built())
    except (Missing, OSError) as error:
        sys.exit("peers: %s" % error)


if __name__ == "__main__":
    main()
