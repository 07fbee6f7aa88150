"""What is taken of a release where there is no kit: the library by ./library, by the package for Python and by the one for Rust."""
import os, re, shutil, subprocess, unittest
from typing import Any

from tests.python.installing import with_modules
from tests.tree import USER, Tree

USES = "import vilgoued; print(vilgoued.library.kv_reach is not None, vilgoued.__file__)"
RUSTC = shutil.which("rustc")


def bytes_of(path: str) -> bytes:
    with open(path, "rb") as file:
        return file.read()


class Taking(Tree):
    def setUp(self) -> None:
        super().setUp()
        self.release()

    def change(self) -> None:
        self.write("crates/low/src/lib.rt", "pub fn changed() {}\n")

    def released(self, name: str) -> bytes:
        """The bytes of a library in the release."""
        return bytes_of(self.works("python3", "scripts/find.py", name, os.path.join(self.room, "released"), kit=False).rstrip("\n"))


class Library(Taking):
    def test_it_is_that_of_the_release(self) -> None:
        self.forget_builds()
        self.works("./library", kit=False)
        self.assertEqual(bytes_of(self.path("lib/libvilgoued.so")), self.released("libvilgoued.so"))
        self.write("user.c", USER)
        self.works("cc", "user.c", "-Ilib", "lib/libvilgoued.a", "-pthread", "-o", "user")
        self.works("./user")
        self.works("cc", "user.c", "-Ilib", "-Llib", "-lvilgoued", "-o", "user")
        self.works("./user", LD_LIBRARY_PATH=self.path("lib"))

    def test_it_goes_where_it_is_asked_for(self) -> None:
        self.works("./library", "some where", kit=False)
        self.assertEqual(sorted(os.listdir(self.path("some where"))), ["libvilgoued.a", "libvilgoued.so", "libvilgoued.so.0", "vilgoued.h",
                                                                       "vilgoued_shared.h"])

    def test_it_is_not_taken_for_one_that_was_built_here(self) -> None:
        self.forget_builds()
        self.works("./library", kit=False)
        self.assertEqual(self.run_in("scripts/current.py", "libvilgoued").returncode, 1)

    def test_that_of_other_sources_is_refused_in_one_sentence(self) -> None:
        self.forget_builds()
        self.change()
        self.assertIn("rt is not on the path, and the release in dist/ is of other sources (crates/low): get the one of these",
                      self.refused("./library", kit=False))
        self.assertFalse(os.path.exists(self.path("lib")))


class Python(Taking):
    """What python/setup.py puts into the package, by itself and once by pip."""

    def setUp(self) -> None:
        super().setUp()
        python, self.site = with_modules("setuptools", "wheel", "pip"), os.path.join(self.room, "site")
        if python is None:
            self.skipTest("no Python here has setuptools, wheel and pip: apt-get install python3-pip python3-wheel")
        self.python = python

    def setup(self, **environment: str) -> subprocess.CompletedProcess[str]:
        return self.run_in(self.python, "setup.py", "--quiet", "build_py", "--build-lib", self.site, kit=False, folder="python", **environment)

    def library(self) -> bytes:
        """The library of the package, which is used from another folder."""
        self.assertIn("True " + self.site, self.works(self.python, "-c", USES, PYTHONPATH=self.site, kit=False))
        return bytes_of(os.path.join(self.site, "vilgoued", "libvilgoued.so"))

    def packed(self, **environment: str) -> bytes:
        done = self.setup(**environment)
        self.assertEqual(done.returncode, 0, done.stdout + done.stderr)
        return self.library()

    def refusal(self, **environment: str) -> str:
        """The sentence by which no package is made."""
        done = self.setup(**environment)
        self.assertNotEqual(done.returncode, 0)
        return "".join(re.findall("^vilgoued: (.*)$", done.stderr, re.M))

    def test_pip_installs_that_of_the_release_without_a_network(self) -> None:
        self.forget_builds()
        pip = [self.python, "-m", "pip", "install", "--no-build-isolation", "--no-index", "--no-deps", "--quiet", "--target", self.site, "./python"]
        done = self.run_in(*pip, kit=False)
        self.assertEqual(done.returncode, 0, done.stdout + done.stderr)
        self.assertEqual(self.library(), self.released("libvilgoued.so"))
        self.assertEqual(sorted(os.listdir(self.path("python"))), ["pyproject.toml", "setup.py", "vilgoued"])

    def test_pip_installs_the_wheel_of_an_installed_release(self) -> None:
        self.forget_builds()
        self.works("./install", kit=False)
        wheels = os.path.join(self.room, ".local/share/vilgoued")
        pip = [self.python, "-m", "pip", "install", "--no-index", "--quiet", "--target", self.site]
        done = self.run_in(*pip, *(os.path.join(wheels, name) for name in os.listdir(wheels)), kit=False)
        self.assertEqual(done.returncode, 0, done.stdout + done.stderr)
        self.assertEqual(self.library(), self.released("libvilgoued.so"))
        self.assertEqual(sorted(os.listdir(os.path.join(self.site, "bin"))), ["vilgoued-from-nats", "vilgoued-to-nats"])
        with self.subTest("which knows all that it has"):
            self.assertRegex(self.works(self.python, "-m", "pip", "freeze", "--path", self.site, kit=False), "^vilgoued.*0[.]2[.]0")

    def test_one_that_was_built_here_goes_before_it(self) -> None:
        self.build_library(number=2)
        self.assertEqual(self.packed(), bytes_of(self.path("lib/libvilgoued.so")))
        with self.subTest("but not one that is older than its sources"):
            self.change()
            self.assertIn("of other sources (crates/low)", self.refusal())

    def test_one_that_is_named_goes_before_both(self) -> None:
        self.works("./library", "named", kit=False)
        self.build_library(number=2)
        named = bytes_of(self.path("named/libvilgoued.so"))
        self.assertEqual(self.packed(VILGOUED_LIB=self.path("named")), named)
        self.assertEqual(self.packed(VILGOUED_LIB=self.path("named/libvilgoued.so")), named)

    def test_without_a_library_one_sentence_says_what_is_missing(self) -> None:
        self.forget_builds()
        with self.subTest("the release is of other sources"):
            self.change()
            self.assertRegex(self.refusal(), r"^no libvilgoued.so was built here, and the release in dist/ is of other sources \(crates/low\): ")
        with self.subTest("there is no release"):
            shutil.rmtree(self.path("dist"))
            self.assertRegex(self.refusal(), "^no libvilgoued.so was built here, and there is no release in dist/: get one, .*VILGOUED_LIB")
        with self.subTest("the one that is named is not there"):
            self.assertRegex(self.refusal(VILGOUED_LIB="/no/such.so"), "^there is no file /no/such.so: VILGOUED_LIB names a library")
        with self.subTest("there is no checkout"):
            shutil.rmtree(self.path("scripts"))
            self.assertIn("is in no checkout", self.refusal())

    def test_it_may_be_made_without_one(self) -> None:
        self.forget_builds()
        shutil.rmtree(self.path("dist"))
        self.assertEqual(self.setup(VILGOUED_LIB="none").returncode, 0)
        self.assertEqual(sorted(os.listdir(os.path.join(self.site, "vilgoued"))), ["__init__.py", "py.typed"])

    def test_an_installed_release_has_it(self) -> None:
        self.works("./install", kit=False)
        self.works(self.python, "-c", USES, PYTHONPATH=os.path.join(self.room, ".local/lib/python"), kit=False)


@unittest.skipUnless(RUSTC, "there is no rustc: apt-get install rustc")
class Rust(Taking):
    """What the build script tells cargo."""

    def told(self, **environment: str) -> Any:
        """How the script ends, and what it tells."""
        script, out = os.path.join(self.room, "script"), os.path.join(self.room, "out")
        if not os.path.exists(script):
            subprocess.run([RUSTC or "", "--edition", "2021", self.path("rust/build.rs"), "-o", script], check=True,
                           env={**os.environ, "CARGO_PKG_VERSION": "0.2.0"})
            os.mkdir(out)
        return self.run_in(script, kit=False, OUT_DIR=out, CARGO_MANIFEST_DIR=self.path("rust"), **environment)

    def linked(self, **environment: str) -> bytes:
        """The bytes of the static library that is linked."""
        done = self.told(**environment)
        self.assertEqual(done.returncode, 0, done.stderr)
        self.assertIn("cargo:rustc-link-lib=static=vilgoued\n", done.stdout)
        return bytes_of(os.path.join(re.findall("^cargo:rustc-link-search=native=(.*)$", done.stdout, re.M)[0], "libvilgoued.a"))

    def test_it_links_the_library_of_the_release(self) -> None:
        self.forget_builds()
        self.assertEqual(self.linked(), self.released("libvilgoued.a"))

    def test_one_of_the_checkout_goes_before_it(self) -> None:
        self.build_library(number=2)
        self.assertEqual(self.linked(), bytes_of(self.path("lib/libvilgoued.a")))

    def test_one_that_is_named_goes_before_both(self) -> None:
        self.works("./library", "named", kit=False)
        self.build_library(number=2)
        named = bytes_of(self.path("named/libvilgoued.a"))
        self.assertEqual(self.linked(VILGOUED_LIB=self.path("named")), named)
        self.assertEqual(self.linked(VILGOUED_LIB=self.path("named/libvilgoued.a")), named)

    def test_it_links_that_of_an_installed_release_of_its_version(self) -> None:
        prefix = os.path.join(self.room, "some where")
        self.works("./install", prefix, kit=False)
        installed = bytes_of(os.path.join(prefix, "lib", "libvilgoued.a"))
        self.forget_builds()
        self.change()
        packages = os.path.join(prefix, "lib", "pkgconfig")
        self.assertEqual(self.linked(PKG_CONFIG_PATH=packages), installed)
        with open(os.path.join(packages, "vilgoued.pc"), encoding="utf-8") as file:
            other = file.read().replace("0.2.0", "0.3.0")
        with open(os.path.join(packages, "vilgoued.pc"), "w", encoding="utf-8") as file:
            file.write(other)
        self.assertEqual(self.told(PKG_CONFIG_PATH=packages).returncode, 1)

    def test_without_one_a_sentence_says_what_is_missing(self) -> None:
        self.forget_builds()
        self.change()
        done = self.told()
        self.assertEqual((done.returncode, done.stderr.count("\n")), (1, 1))
        self.assertRegex(done.stderr, r"^vilgoued: there is no lib/libvilgoued.a in the checkout, pkg-config knows no vilgoued 0.2.0, and the release "
                                      r"in dist/ is of other sources \(crates/low\): ")
        done = self.told(VILGOUED_LIB="/no/such.a")
        self.assertEqual((done.returncode, done.stderr.count("\n")), (1, 1))
        self.assertIn("vilgoued: there is no /no/such.a: VILGOUED_LIB has to name a library", done.stderr)


if __name__ == "__main__":
    unittest.main()
