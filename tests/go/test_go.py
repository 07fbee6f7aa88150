"""The module for Go in go/, with the go that is on the path: its tests, under the detector of races too, the example of its page, the
worked scripts, gofmt and vet; and where Debian's package of nats.go is there, one function over this bucket and over one of a
nats-server. Nothing asks the network, and what is built stays in out/go."""
import os
import shutil
import subprocess
import unittest

from tests import top
from tests.commands import InAFolder, ran
from tests.driven import Driven
from tests.pages.examples import blocks
from tests.replay import replay
from tests.server import running
from tests.worked import scripts

GO = shutil.which("go", path=os.environ.get("PATH", "") + ":/usr/bin:/usr/lib/go/bin")
MODULE, BUILT = os.path.join(top, "go"), os.path.join(top, "out", "go")
# Where Debian puts the sources of packages.
SOURCES = "/usr/share/gocode"
LIMIT = 400
OF_PAGE = """module page

go 1.19

require vilgoued v0.0.0

replace vilgoued => %s
""" % MODULE


def environment(**more: str) -> dict[str, str]:
    folder = os.path.dirname(os.path.abspath(os.environ["VILGOUED_LIB"]))
    flags = {"CGO_CFLAGS": "-g -O2 -I%s -I%s" % (os.path.join(top, "include"), folder), "CGO_LDFLAGS": "-L" + folder}
    return {**os.environ, "CGO_ENABLED": "1", "GOPROXY": "off", "GOFLAGS": "-mod=mod", "GOTOOLCHAIN": "local",
            "GOCACHE": os.path.join(BUILT, "cache"), **flags, **more}


def go(*words: str, folder: str = MODULE, **more: str) -> str:
    """What go prints, which has to succeed."""
    assert GO
    return ran(GO, *words, cwd=folder, env=environment(**more), timeout=LIMIT)


@unittest.skipUnless(GO, "there is no go: apt-get install golang-go")
class Go(InAFolder):
    def test_its_tests_pass(self) -> None:
        go("test", "-count=1", "-timeout", "300s", "./...")

    def test_its_tests_pass_under_the_detector_of_races(self) -> None:
        go("test", "-count=1", "-race", "-short", "-timeout", "300s", ".")

    def test_vet_finds_nothing(self) -> None:
        go("vet", "./...")

    def test_gofmt_would_change_nothing(self) -> None:
        gofmt = shutil.which("gofmt", path=os.path.dirname(os.path.realpath(GO or "")) + ":" + os.environ.get("PATH", ""))
        if not gofmt:
            self.skipTest("there is no gofmt")
        found = subprocess.run([gofmt, "-l", MODULE, os.path.join(top, "tests", "go")], stdin=subprocess.DEVNULL, capture_output=True,
                               text=True, timeout=LIMIT)
        self.assertEqual((found.returncode, found.stdout, found.stderr), (0, "", ""))

    def test_each_script_has_the_answers_of_the_program(self) -> None:
        program = os.path.join(self.folder, "lines")
        go("build", "-o", program, "./lines")
        for script in scripts():
            if not script.is_race:
                with self.subTest(script.name), Driven(program, **script.settings) as bucket:
                    self.assertEqual(replay(bucket, script), script.output.decode().splitlines())

    def test_the_examples_of_the_page_print_what_it_says(self) -> None:
        examples, answers = blocks("docs/go.md", "go"), blocks("docs/go.md", "answers")
        self.assertEqual((len(examples) > 0, len(examples)), (True, len(answers)))
        with open(os.path.join(self.folder, "go.mod"), "w", encoding="utf-8") as file:
            file.write(OF_PAGE)
        for lines, wanted in zip(examples, answers):
            with open(os.path.join(self.folder, "main.go"), "w", encoding="utf-8") as file:
                file.write("\n".join(lines) + "\n")
            self.assertEqual(go("run", ".", folder=self.folder).splitlines(), wanted)

    def test_it_links_an_installed_release_and_says_where_there_is_no_library(self) -> None:
        copied, prefix = os.path.join(self.folder, "copied"), os.path.join(self.folder, "prefix")
        for path in "go", "include":
            shutil.copytree(os.path.join(top, path), os.path.join(copied, path))
        shutil.copytree(os.path.join(top, "include"), os.path.join(prefix, "include"))
        os.mkdir(os.path.join(prefix, "lib"))
        library = os.path.join(os.path.dirname(os.path.abspath(os.environ["VILGOUED_LIB"])), "libvilgoued.a")
        shutil.copy(library, os.path.join(prefix, "lib"))
        words = "build", "-o", os.path.join(self.folder, "lines"), "./lines"
        go(*words, folder=os.path.join(copied, "go"), CGO_CFLAGS="-I%s/include" % prefix, CGO_LDFLAGS="-L%s/lib" % prefix)
        with self.assertRaisesRegex(AssertionError, "there is no lib/libvilgoued.a in the checkout: run ./library there, or name an installed"):
            go(*words, folder=os.path.join(copied, "go"), CGO_CFLAGS="", CGO_LDFLAGS="")

    def test_what_calls_take_is_told(self) -> None:
        print(go("run", "./costs"), end="")

    @unittest.skipUnless(os.path.isdir(SOURCES + "/src/github.com/nats-io/nats.go"),
                         "there is no nats.go: apt-get install golang-github-nats-io-go-nats-dev")
    def test_one_function_sees_the_same_on_this_bucket_and_on_one_of_nats(self) -> None:
        # Debian's packages have no modules, so these two are found by their folders.
        sources = os.path.join(self.folder, "src")
        os.makedirs(sources)
        os.symlink(MODULE, os.path.join(sources, "vilgoued"))
        os.symlink(os.path.join(top, "tests", "go", "both"), os.path.join(sources, "both"))
        how = {"GO111MODULE": "off", "GOFLAGS": "", "GOPATH": "%s:%s" % (self.folder, SOURCES)}
        program = running.program(self.folder)
        if program is None:
            go("test", "-count=1", "-timeout", "300s", "both", folder=sources, **how)
            self.skipTest("it ran on this bucket alone, as there is no nats-server: apt-get install nats-server")
        with running.Server(program) as server:
            told = go("test", "-count=1", "-v", "-timeout", "300s", "both", folder=sources, VILGOUED_SERVER=server.url, **how)
        self.assertIn("--- PASS: TestTheFunctionSeesTheSameOnABucketOfNATS", told)


if __name__ == "__main__":
    unittest.main()
