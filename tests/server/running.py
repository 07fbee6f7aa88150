"""A nats-server of Debian's package, on loopback, on a free port, with its store in a temporary folder. Where none is installed,
the package is unpacked into a temporary folder; nothing is installed."""
import glob, json, os, shutil, subprocess, tempfile, time
from typing import Any, Optional, Sequence


def program(folder: str) -> Optional[str]:
    """The path of a nats-server, or None where there is none to be had."""
    installed = shutil.which("nats-server", path=os.environ.get("PATH", "") + ":/usr/sbin")
    return installed or unpacked(folder)


def unpacked(folder: str) -> Optional[str]:
    """The server of Debian's package, which is fetched by apt-get; its lists are fetched too where they are not there."""
    if not shutil.which("apt-get") or not shutil.which("dpkg-deb"):
        return None
    lists = ["-o", "Dir::State::Lists=%s/lists" % folder, "-o", "Dir::Cache=%s/cache" % folder]
    for names in (["lists", "partial"], ["cache", "archives", "partial"]):
        os.makedirs(os.path.join(folder, *names))
    download = ["download", "nats-server"]
    for commands in [download], [[*lists, "update"], [*lists, *download]]:
        for command in commands:
            run(["apt-get", "-q", *command], folder)
        for package in glob.glob(os.path.join(folder, "nats-server_*.deb")):
            run(["dpkg-deb", "-x", package, folder], folder)
            return os.path.join(folder, "usr", "sbin", "nats-server")
    return None


def run(command: Sequence[str], folder: str) -> None:
    try:
        subprocess.run(command, cwd=folder, stdin=subprocess.DEVNULL, capture_output=True, timeout=60)
    except subprocess.TimeoutExpired:
        pass


class Server:
    """A server that runs until the end of the block. `settings` are lines of its configuration."""

    def __init__(self, program: str, settings: str = "", keeps_buckets: bool = True) -> None:
        self._program, self._settings, self._keeps_buckets = program, settings, keeps_buckets

    def __enter__(self) -> "Server":
        self._folder = tempfile.TemporaryDirectory()
        room = self._folder.name
        with open(os.path.join(room, "configuration"), "w", encoding="utf-8") as file:
            file.write(self._settings + "\n")
            if self._keeps_buckets:
                file.write('jetstream { store_dir: "%s/store" }\n' % room)
        self._process = subprocess.Popen(
            [self._program, "-c", "configuration", "-a", "127.0.0.1", "-p", "-1", "--ports_file_dir", room, "-l", "log"],
            cwd=room, stdin=subprocess.DEVNULL, stdout=subprocess.DEVNULL, stderr=subprocess.DEVNULL)
        try:
            self.url = self._told()
        except BaseException:
            self.end()
            raise
        self.port = int(self.url.rpartition(":")[2])
        return self

    def _told(self) -> Any:
        """The URL that the server writes into a file once it is ready."""
        for _ in range(200):
            for path in glob.glob(os.path.join(self._folder.name, "*.ports")):
                with open(path, encoding="utf-8") as file:
                    text = file.read()
                if text.endswith("}"):
                    return json.loads(text)["nats"][0]
            time.sleep(0.05)
        raise RuntimeError("nats-server did not start")

    def end(self) -> None:
        self._process.terminate()
        self._process.wait()
        self._folder.cleanup()

    def __exit__(self, *_: object) -> None:
        self.end()
