#!/usr/bin/env python3
"""install.py [PREFIX]: puts the release that lies in dist/ under a folder, ~/.local where none is named, and tells each file that it
wrote, and how they are found there."""
from __future__ import annotations

import os, shlex, sys, tempfile

if __name__ == "__main__":
    sys.dont_write_bytecode = True
    sys.path.insert(0, os.path.dirname(os.path.dirname(os.path.realpath(__file__))))
from scripts import archive

# What stands at the top of the archive, and is not of its own kind there.
DOCUMENTS = {"BUILD": "share/doc/vilgoued/BUILD", "LICENSE": "share/doc/vilgoued/LICENSE"}
# How it is found. Manual pages are looked for beside each folder of PATH.
FOUND_BY = (("PATH", "bin"), ("PKG_CONFIG_PATH", "lib/pkgconfig"), ("PYTHONPATH", "lib/python"))


def put(path: str, member: archive.Member) -> None:
    """Writes a file, or a link, in place of what is there: who runs the old one, or reads it, keeps it."""
    os.makedirs(os.path.dirname(path), exist_ok=True)
    with tempfile.TemporaryDirectory(dir=os.path.dirname(path)) as folder:
        new = os.path.join(folder, "new")
        if member.link:
            os.symlink(member.link, new)
        else:
            with open(new, "wb") as file:
                file.write(member.data)
            os.chmod(new, 0o755 if member.is_run else 0o644)
        os.replace(new, path)


def install(prefix: str) -> None:
    name = archive.only()
    for path, member in dict(archive.each(name)).items():
        whole = os.path.join(prefix, DOCUMENTS.get(path, path))
        put(whole, member)
        print(whole)
    print("installed %s; it is found there with" % name)
    for variable, folder in FOUND_BY:
        print("export %s=%s${%s:+:$%s}" % (variable, shlex.quote(os.path.join(prefix, folder)), variable, variable))


def main() -> None:
    words = sys.argv[1:]
    try:
        if len(words) > 1 or any(word.startswith("-") for word in words):
            sys.exit("install: the only argument is a folder to install under, as in ./install /usr/local")
        install(os.path.abspath(words[0] if words else os.path.expanduser("~/.local")))
    except archive.Missing as error:
        sys.exit("install: %s" % error)
    except OSError as error:
        sys.exit("install: %s: name a folder that you may write to, as in ./install ~/.local" % error)


if __name__ == "__main__":
    main()
