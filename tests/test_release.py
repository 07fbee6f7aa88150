"""./release, ./install and the choice that ./kvbucket makes, in a small tree with these scripts. The commands of docs/install.md are run
in it."""
import gzip, os, re, shlex, shutil, tarfile, unittest

from scripts import archive, objects
from tests import top
from tests.tree import KIT, LIBRARY, PROGRAM, USER, Tree

HEADERS = ["include/" + name for name in sorted(os.listdir(os.path.join(top, "include")))]
MEMBERS = ["BUILD", "LICENSE", "bin/kvbucket", *HEADERS, "lib/libvilgoued.a", "lib/libvilgoued.so", "lib/libvilgoued.so.0",
           "lib/pkgconfig/vilgoued.pc", "lib/python/vilgoued/__init__.py", "lib/python/vilgoued/libvilgoued.so",
           "lib/python/vilgoued/py.typed", "share/man/man1/kvbucket.1", "share/man/man3/vilgoued.3",
           "share/vilgoued/vilgoued-0.2.0-py3-none-manylinux_2_34_x86_64.whl"]


class Making(Tree):
    def test_it_has_what_was_built(self) -> None:
        with tarfile.open(self.release()) as file:
            file.extractall(self.room)
        root = os.path.join(self.room, "vilgoued-0.2.0-%s" % archive.machine())
        files = sorted(os.path.relpath(os.path.join(folder, name), root) for folder, _, names in os.walk(root) for name in names)
        self.assertEqual(files, MEMBERS)
        self.assertEqual(self.works(os.path.join(root, "bin", "kvbucket")), "built here\n")
        self.assertEqual(os.readlink(os.path.join(root, "lib", "libvilgoued.so")), "libvilgoued.so.0")
        with open(os.path.join(root, "BUILD"), encoding="utf-8") as build:
            lines = build.read().splitlines()
        self.assertEqual(lines[:2], ["version: 0.2.0", "kit: rattle-kit-0 logic 0123"])
        self.assertRegex(lines[2], "^compiler: .* version .*, .*strip")
        self.assertRegex(lines[3], "^libvilgoued.a, what the kit made: [0-9a-f]{64}$")
        sources = [line.split()[1] for line in lines[5:]]
        self.assertEqual(sources, sorted(sources))
        self.assertLessEqual({"crates/kv_c", "crates/kvbucket", "crates/low", *HEADERS, "library", "scripts/exports.map"}, set(sources))

    def test_it_has_no_times_no_owners_and_an_order(self) -> None:
        with open(self.release(), "rb") as file:
            self.assertEqual(file.read(8)[3:], bytes(5), "no name, and no time")
        with tarfile.open(self.release()) as tar:
            members = tar.getmembers()
        self.assertEqual([it.name for it in members], sorted(it.name for it in members))
        self.assertEqual({(it.mtime, it.uid, it.gid, it.uname, it.gname) for it in members}, {(0, 0, 0, "", "")})

    def test_it_is_the_same_each_time(self) -> None:
        with open(self.make(), "rb") as file:
            first = file.read()
        for folder, _, names in os.walk(self.top):
            for name in names:
                os.utime(os.path.join(folder, name), (1, 1))
        with open(self.make(), "rb") as file:
            self.assertEqual(file.read(), first)

    def test_it_takes_the_place_of_the_one_before(self) -> None:
        self.release()
        self.write("crates/kvbucket/out/kvbucket", PROGRAM.replace("0.2.0", "0.3.0") % "later", is_run=True)
        self.keep("kvbucket")
        self.works("./release")
        self.assertEqual(os.listdir(self.path("dist")), ["vilgoued-0.3.0-%s.tar.gz" % archive.machine()])

    def test_it_is_made_of_nothing_older_than_its_sources(self) -> None:
        self.assertIn("run ./kvbucket --build", self.refused("./release"))
        self.build_program()
        self.assertIn("run ./library", self.refused("./release"))
        self.build_library()
        self.works("./release")
        self.write("crates/low/src/lib.rt", "pub fn changed() {}\n")
        self.assertIn("run ./kvbucket --build", self.refused("./release"))

    def test_it_is_made_of_no_program_of_another_logic(self) -> None:
        self.release()
        self.write("kit/rt", KIT.replace("0123", "4567"), is_run=True)
        self.assertIn("the kit proves in logic 4567", self.refused("./release"))

    def test_it_is_made_of_what_library_makes(self) -> None:
        self.build_program()
        self.build_static("kit/libkv_c.a", LIBRARY % 1)
        self.build_static("kit/c/liblibc_c.a", "int heap;\n")
        self.works("./library")
        self.assertIn("[libvilgoued.so.0]", self.works("readelf", "-d", "lib/libvilgoued.so"))
        self.assertEqual(os.readlink(self.path("lib/libvilgoued.so.0")), "libvilgoued.so")
        self.works("./release")
        self.works("./release", "--check")

    def test_another_argument_is_refused(self) -> None:
        self.assertIn("--check", self.refused("./release", "--all"))


class Checking(Tree):
    def commit(self, *paths: str) -> None:
        """Commits these files of the tree, in a repository of its own."""
        git = ("git", "-c", "user.name=A Tree", "-c", "user.email=tree@example.org")
        self.works("git", "init", "--quiet")
        self.works("git", "add", "--", *paths)
        self.works(*git, "commit", "--quiet", "--message=It")

    def test_without_a_release_in_no_checkout_it_is_left_out(self) -> None:
        self.assertRegex(self.works("./release", "--check"), "^1 left out: there is no release in dist/")

    @unittest.skipUnless(shutil.which("git"), "git is not installed: apt-get install git")
    def test_without_a_release_in_a_checkout_that_never_had_one_it_is_left_out(self) -> None:
        self.works("git", "init", "--quiet")
        self.assertRegex(self.works("./release", "--check"), "^1 left out: there is no release in dist/")
        self.commit("LICENSE")
        self.assertRegex(self.works("./release", "--check"), "^1 left out: there is no release in dist/")

    @unittest.skipUnless(shutil.which("git"), "git is not installed: apt-get install git")
    def test_a_release_that_a_commit_has_and_that_is_gone_fails(self) -> None:
        self.release()
        self.commit("dist")
        self.works("./release", "--check")
        for remove, gone in ((os.remove, self.path("dist/vilgoued-0.2.0-%s.tar.gz" % archive.machine())), (os.rmdir, self.path("dist"))):
            with self.subTest(os.path.basename(gone)):
                remove(gone)
                self.assertRegex(self.refused("./release", "--check"), "^release: there is no release in dist/: .* ./release ")
        with self.subTest("a later commit has none"):
            self.works("git", "rm", "--quiet", "-r", "dist")
            self.commit("LICENSE")
            self.assertIn("there is no release in dist/", self.refused("./release", "--check"))

    @unittest.skipUnless(shutil.which("git"), "git is not installed: apt-get install git")
    def test_a_checkout_whose_commits_nobody_tells_fails(self) -> None:
        self.write(".git", "gitdir: nowhere\n")
        self.assertIn("git does not tell whether the commits of this checkout have a release", self.refused("./release", "--check"))

    def test_a_release_of_what_was_built_passes(self) -> None:
        self.release()
        self.assertIn("the release is what was built: %d files" % len(MEMBERS), self.works("./release", "--check"))

    def test_one_that_is_older_than_the_sources_fails(self) -> None:
        for path in "crates/low/specs/It.antt", "include/vilgoued.h", "scripts/exports.map":
            with self.subTest(path):
                self.release()
                self.write(path, "changed\n" if path.startswith("crates") else "/* changed */\n")
                named = "crates/low" if path.startswith("crates") else path
                told = self.refused("./release", "--check")
                self.assertIn("older than its sources (", told)
                self.assertIn(named, told)
                self.assertIn("run ./release", told)
                if path.startswith("crates"):
                    os.remove(self.path(path))
                else:
                    shutil.copy(os.path.join(top, path), self.path(path))

    def test_one_with_another_file_than_the_tree_fails(self) -> None:
        self.release()
        for path, members in (("docs/man/kvbucket.1", "share/man/man1/kvbucket.1"), ("LICENSE", "LICENSE, share/man/man1/kvbucket.1"),
                              ("python/vilgoued/new.py", "LICENSE, lib/python/vilgoued/new.py, share/man/man1/kvbucket.1, %s" % MEMBERS[-1])):
            with self.subTest(path):
                self.write(path, "changed\n")
                self.assertIn("is not what was built (%s): run ./release" % members, self.refused("./release", "--check"))

    def test_one_with_another_program_or_library_fails(self) -> None:
        name = os.path.basename(self.release()).removesuffix(".tar.gz")
        self.alter(name, "bin/kvbucket", PROGRAM % "built elsewhere")
        self.assertIn("is not what was built (bin/kvbucket)", self.refused("./release", "--check"))
        self.release()
        self.build_library(number=2)
        self.assertIn("lib/libvilgoued.a", self.refused("./release", "--check"))

    def test_one_of_another_form_fails(self) -> None:
        path = self.release()
        with gzip.open(path) as file:
            tar = file.read()
        with gzip.open(path, "wb") as file:
            file.write(tar + bytes(10240))
        self.assertIn("the form", self.refused("./release", "--check"))

    def test_the_library_of_another_compiler_is_compared_by_its_sources(self) -> None:
        self.release()
        self.write("kit/other-cc", "#!/bin/sh\necho 'other version 9' >&2\n", is_run=True)
        self.write("lib/libvilgoued.so", "made by another compiler\n")
        self.keep("libvilgoued", CC="other-cc")
        self.assertIn("since another compiler made them: ", self.works("./release", "--check", CC="other-cc"))
        with self.subTest("what the kit made of it is not the same"):
            self.build_static("lib/libvilgoued.a", LIBRARY % 2)
            self.keep("libvilgoued", CC="other-cc")
            self.assertIn("is not what was built (BUILD): run ./release", self.refused("./release", "--check", CC="other-cc"))
        with self.subTest("its sources have changed"):
            self.write("crates/kv_c/src/lib.rt", "pub fn changed() {}\n")
            self.assertIn("crates/kv_c", self.refused("./release", "--check", CC="other-cc"))

    def test_the_kit_made_all_of_the_library_but_the_shell(self) -> None:
        self.build_static("one.a", LIBRARY % 1)
        self.works("cp", "it.o", "a_name_of_more_than_sixteen_letters.o")
        sums = []
        for shell in 1, 2:
            self.build_static("shell.a", LIBRARY % shell)
            self.works("mv", "it.o", "shared.o")
            self.works("ar", "rcD", "all%d.a" % shell, "a_name_of_more_than_sixteen_letters.o", "shared.o")
            with open(self.path("all%d.a" % shell), "rb") as file:
                data = file.read()
            self.assertEqual([name for name, _ in objects.objects(data)], ["a_name_of_more_than_sixteen_letters.o", "shared.o"])
            sums.append(objects.sum_of_kit(data))
        self.assertEqual(sums[0], sums[1])

    def test_what_was_not_built_is_not_compared(self) -> None:
        self.release()
        self.forget_builds()
        self.assertIn("run ./kvbucket --build", self.refused("./release", "--check"))

    def test_one_of_another_kit_fails(self) -> None:
        self.release()
        self.write("kit/rt", KIT.replace("kit-0", "kit-1"), is_run=True)
        self.assertIn("of rattle-kit-0 logic 0123, and the kit is rattle-kit-1 logic 0123", self.refused("./release", "--check"))


class Running(Tree):
    def test_the_program_of_the_release_needs_no_kit(self) -> None:
        self.release()
        self.forget_builds()
        for _ in range(2):
            self.assertEqual(self.works("./kvbucket", kit=False), "built here\n")
        self.assertEqual(self.works("./kvbucket", "--version", kit=False), "kvbucket 0.2.0, proved with Rattle's logic 0123\n")

    def test_one_that_was_unpacked_and_changed_is_unpacked_again(self) -> None:
        self.release()
        self.forget_builds()
        self.works("./kvbucket", kit=False)
        self.write("out/release/kvbucket", PROGRAM % "changed", is_run=True)
        self.assertEqual(self.works("./kvbucket", kit=False), "built here\n")

    def test_what_was_built_here_goes_before_it(self) -> None:
        self.release()
        self.build_program(says="built later")
        self.assertEqual(self.works("./kvbucket", kit=False), "built later\n")

    def test_what_was_built_here_is_not_built_again(self) -> None:
        self.build_program()
        done = self.run_in("./kvbucket", "--build")
        self.assertEqual((done.returncode, done.stdout), (0, ""))
        self.assertIn("is proved and built, and nothing has changed since", done.stderr)

    def test_a_release_stands_for_no_build(self) -> None:
        self.release()
        self.forget_builds()
        done = self.run_in("./kvbucket", "--build", kit=False)
        self.assertEqual((done.returncode, done.stderr),
                         (2, "kvbucket: the Rattle kit's command rt is not on the path: install the kit, whose prover a build needs\n"))

    def test_a_release_of_other_sources_is_not_run(self) -> None:
        self.release()
        self.forget_builds()
        self.write("crates/low/src/lib.rt", "pub fn changed() {}\n")
        done = self.run_in("./kvbucket")
        self.assertEqual((done.returncode, done.stdout), (0, "quick build\n"))
        self.assertIn("a quick build, which proves nothing", done.stderr)
        self.assertIn("rt is not on the path, nothing was built of these sources, and the release in dist/ is of other sources (crates/low): ",
                      self.refused("./kvbucket", kit=False))

    def test_with_neither_a_release_nor_the_kit_one_sentence_says_so(self) -> None:
        self.assertIn("rt is not on the path, nothing was built of these sources, and there is no release in dist/: get one, ",
                      self.refused("./kvbucket", kit=False))

    def test_in_a_folder_that_takes_no_file_it_is_unpacked_into_one_of_the_users(self) -> None:
        self.release()
        self.forget_builds()
        self.write("out", "no folder\n")
        self.assertEqual(self.works("./kvbucket", kit=False), "built here\n")
        self.assertEqual(os.listdir(os.path.join(self.room, ".cache")), ["vilgoued"])

    def test_a_change_of_the_library_alone_leaves_the_program(self) -> None:
        self.release()
        self.forget_builds()
        self.write("crates/kv_c/src/lib.rt", "pub fn changed() {}\n")
        self.assertEqual(self.works("./kvbucket", kit=False), "built here\n")

    def test_an_archive_that_is_none_is_not_run(self) -> None:
        path = self.release()
        self.forget_builds()
        with open(path, "wb") as file:
            file.write(b"no archive")
        self.assertEqual(self.works("./kvbucket"), "quick build\n")


class Installing(Tree):
    def installed(self, *words: str) -> tuple[list[str], list[str]]:
        """The paths that an installation tells, and the lines behind them."""
        lines = self.works("./install", *words, kit=False).splitlines()
        at = next(at for at, line in enumerate(lines) if line.startswith("installed "))
        return lines[:at], lines[at:]

    def test_it_says_what_it_wrote(self) -> None:
        self.release()
        prefix = os.path.join(self.room, "some where")
        told, behind = self.installed(prefix)
        there = [os.path.join(folder, name) for folder, _, names in os.walk(prefix) for name in names]
        self.assertEqual(sorted(told), sorted(there))
        self.assertEqual(len(told), len(MEMBERS))
        self.assertIn("export PATH='%s/bin'${PATH:+:$PATH}" % prefix, behind)
        self.assertTrue(os.access(os.path.join(prefix, "bin", "kvbucket"), os.X_OK))
        self.assertFalse(os.access(os.path.join(prefix, "LICENSE"), os.F_OK), "it stands in share/doc")

    def test_it_goes_to_the_users_own_folder(self) -> None:
        self.release()
        told, _ = self.installed()
        self.assertIn(os.path.join(self.room, ".local", "bin", "kvbucket"), told)

    def test_another_one_takes_its_place(self) -> None:
        self.release()
        first = self.installed()
        self.build_program(says="built later")
        self.works("./release")
        self.assertEqual(self.installed(), first)
        self.assertEqual(self.works(os.path.join(self.room, ".local/bin/kvbucket")), "built later\n")

    def test_pkg_config_finds_it(self) -> None:
        self.release()
        prefix = os.path.join(self.room, "some where")
        self.installed(prefix)
        flags = self.works("pkg-config", "--cflags", "--libs", "vilgoued", PKG_CONFIG_PATH=os.path.join(prefix, "lib/pkgconfig"))
        self.write("user.c", USER)
        self.works("cc", "user.c", *shlex.split(flags), "-o", "user")
        self.works("./user", LD_LIBRARY_PATH=os.path.join(prefix, "lib"))
        version = self.works("pkg-config", "--modversion", "vilgoued", PKG_CONFIG_PATH=os.path.join(prefix, "lib/pkgconfig"))
        self.assertEqual(version, "0.2.0\n")

    def test_a_release_that_is_missing_is_one_sentence(self) -> None:
        self.assertIn("there is no release in dist/", self.refused("./install", kit=False))

    def test_one_for_another_machine_is_one_sentence(self) -> None:
        self.write("dist/vilgoued-0.2.0-linux-other64.tar.gz", "")
        self.assertIn("is for linux-other64, and this machine is %s" % archive.machine(), self.refused("./install", kit=False))

    def test_a_broken_one_is_one_sentence_and_writes_nothing(self) -> None:
        path = self.release()
        with open(path, "r+b") as file:
            file.truncate(os.path.getsize(path) // 2)
        self.assertIn("is no whole archive", self.refused("./install", kit=False))
        self.assertFalse(os.path.exists(os.path.join(self.room, ".local")))

    def test_two_releases_are_one_sentence(self) -> None:
        shutil.copy(self.release(), self.path("dist/vilgoued-0.1.0-%s.tar.gz" % archive.machine()))
        self.assertIn("dist/ has 2 releases", self.refused("./install", kit=False))

    def test_a_folder_that_is_none_is_one_sentence(self) -> None:
        self.release()
        self.write("file", "")
        self.assertIn("install: ", self.refused("./install", self.path("file"), kit=False))
        self.assertIn("the only argument", self.refused("./install", "--prefix", kit=False))


class Page(Tree):
    def test_its_commands_run(self) -> None:
        self.release()
        self.write("program.c", USER)
        with open(os.path.join(top, "docs", "install.md"), encoding="utf-8") as page:
            commands = re.findall(r"^```sh\n(.*?)^```$", page.read(), re.M | re.S)
        told = self.works("bash", "-euc", "".join(commands), kit=False)
        for text in "kvbucket 0.2.0", "kit: rattle-kit-0 logic 0123", ".local/lib/pkgconfig/vilgoued.pc":
            self.assertIn(text, told)


if __name__ == "__main__":
    unittest.main()
