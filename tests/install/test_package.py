"""The packages of `make package`, also in a bare Debian tree, which has no toolchain.

The program that is tested is packed, as if it were the one that was proved. Packing twice must give the same bytes, and
lintian must find nothing but information in the Debian package, whose copyright is in Debian's form and whose changelog
has the entries of CHANGELOG.md. The archive is unpacked into a folder in use, whose folders must keep their
permissions. There the commands of the installed pages run, and the archive is removed again. mmdebstrap makes the bare
tree over the network, with the packages that read manual pages and completions. In the tree each package is installed,
used like a new user would, and removed. The lines that install and remove are those of README.md.
"""

import os
import platform
import re
import shutil
import sys
import unittest

from support import MANY, PROGRAM, ROOT, Case, needs, not_in_ci, read, read_bytes, rows, run
from support.trees import BUILT, RECORD, Tree, digest

READERS = "man-db,bash-completion,zsh,fish,python3"
# The lines of a new user, with the text that each prints. `PREFIX` is the installation prefix of the package.
LINES = (
    ("command -v rt || echo no toolchain", "no toolchain\n"),
    ("cd /tmp && printf '10.0.0.0/8 A\\n10.0.0.0/7 B\\n' >map.txt && flowlabel label --pmap map.txt 10.1.1.1", "B\n"),
    ("man -w flowlabel flowlabel-formats | xargs readlink -f",
     "PREFIX/share/man/man1/flowlabel.1GZ\nPREFIX/share/man/man5/flowlabel-formats.5GZ\n"),
    ("bash -c '. /usr/share/bash-completion/bash_completion; _completion_loader flowlabel; complete -p flowlabel'",
     "complete -o filenames -F _flowlabel flowlabel\n"),
    ("zsh -fc 'autoload -Uz compinit; compinit -D; echo $_comps[flowlabel]'", "_flowlabel\n"),
    ("fish -c 'complete -C \"flowlabel sh\"'", "shrink\tPrint a shortest prefix list of a map\n"),
    ("cat PREFIX/share/doc/flowlabel/copyright | head -n 1",
     "Format: https://www.debian.org/doc/packaging-manuals/copyright-format/1.0/\n"),
    ("man -w flowlabel-lint | xargs readlink -f", "PREFIX/share/man/man1/flowlabel-scripts.1GZ\n"),
    ("readlink -f PREFIX/bin/flowlabel-verify PREFIX/lib/flowlabel/commands/verify.py",
     "PREFIX/bin/flowlabel-verify\nPREFIX/lib/flowlabel/commands/verify.py\n"),
    # A system that installs no documentation.
    ("mv PREFIX/share/doc/flowlabel /tmp/doc && cd /tmp && echo 10.1.1.1 | flowlabel-lookup --pmap map.txt; "
     "mv /tmp/doc PREFIX/share/doc/flowlabel", "B\n"),
)
# The licences of crates of the kit, and of its library.
LINKED = ["arrayvec", "byteorder", "clap", "indexmap", "itoa", "jiff_core", "jiff_fmt", "memchr", "smallvec", "strsim", "thiserror"]
NOTICES = ("Permission is hereby granted", "Copyright (c) 2015 Andrew Gallant", "Copyright (c) Individual contributors",
           "Copyright (c) 2018 The Servo Project Developers", "UNICODE LICENSE V3", "fast-float2", "Danny Guo")
LEFT = "find / -xdev -name '*flowlabel*' -not -path '/proc/*' -not -path '/tmp/*' -not -path '/var/*'"


def output(*words, **options):
    """Returns the output of a command that must succeed."""
    return run(*words, check=True, **options).stdout.decode()


def files_below(folder):
    """Returns the paths of the files below a folder."""
    return [os.path.join(place, name) for place, _, names in os.walk(folder) for name in names]


def lines_of_readme(file, prefix="/usr/local"):
    """Returns the lines of README.md that install a package and remove it, for a file and the prefix of an archive."""
    words = ("sudo dpkg -i", "sudo dpkg -r") if file.endswith(".deb") else ("sudo tar -xf", "tar -tf")
    found = [re.search(rf"(?m)^    ({word} .*)", read(ROOT / "README.md"))[1] for word in words]
    return [re.sub(r"out/flowlabel[-_]VERSION\S+", file, line).replace("sudo ", "").replace("/usr/local", prefix)
            for line in found]


class PackageCase(Case):
    """Tests of an archive and of a Debian package, with the record of the program in them."""

    @classmethod
    def prepare(cls):
        cls.version = output(PROGRAM, "--version").removeprefix("flowlabel ").strip()
        if not re.fullmatch(r"[\d.]+", cls.version):
            raise unittest.SkipTest(f"the program is no release: {cls.version}")
        cls.tree = Tree(read(ROOT / "crates.txt"))
        cls.tree.record(PROGRAM, MANY)
        # What is packed has the licences of the kit.
        os.remove(f"{cls.tree.stub}/rt")
        cls.archive, cls.package = cls.pack()

    @classmethod
    def pack(cls):
        """Makes the packages, and returns their names."""
        status, names, messages = cls.tree.call("dev/package")
        assert status == 0, messages
        return names.split()


@needs("rt", "strip", "objcopy", "nm", "dpkg-deb")
class Packages(PackageCase):
    """What is in both packages."""

    @classmethod
    def prepare(cls):
        super().prepare()
        output("dpkg-deb", "-x", cls.tree.path(cls.package), "deb")

    def test_names(self):
        self.assertEqual(self.archive, f"out/flowlabel-{self.version}-x86_64-linux.tar.gz")
        self.assertEqual(self.package, f"out/flowlabel_{self.version}_amd64.deb")

    def test_second_time(self):
        """The same program gives the same bytes."""
        before = [digest(self.tree.path(name)) for name in (self.archive, self.package)]
        self.assertEqual([digest(self.tree.path(name)) for name in self.pack()], before)

    @needs("lintian")
    def test_lintian(self):
        ended = run("lintian", "--allow-root", "--pedantic", self.tree.path(self.package))
        self.assertEqual([line for line in ended.stdout.decode().splitlines() if line[:3] in ("E: ", "W: ", "P: ")], [])

    def test_control(self):
        fields = output("dpkg-deb", "-f", self.tree.path(self.package))
        self.assertEqual([name for name in ("\nSuggests: ", "\nRecommends: python3\n", " nfdump, ") if name not in fields],
                         [])
        # A clone of a folder is no place that a reader of the package can visit.
        remotes = re.search(r"\bhttps?://", output("git", "remote", "-v", cwd=ROOT))
        self.assertEqual(bool(re.search(r"(?m)^(?:Homepage|Vcs-\w+):", fields)), bool(remotes))

    def test_changes(self):
        changes = output("zcat", "deb/usr/share/doc/flowlabel/changelog.gz")
        section = re.search(r"(?ms)^## \S+ \(\d{4}-\d\d-\d\d\)\n(.*?)(?=^## |\Z)", read(ROOT / "CHANGELOG.md"))[1]
        self.assertEqual(changes.count("\n  * "), section.count("\n- "))
        self.assertIn("\n  [ Added ]\n", changes)
        self.assertIn("\n  * Filters for `rows` and `uniq`", changes)
        self.assertNotIn("](docs", changes)

    def test_interpreters(self):
        programs = ("deb/usr/bin/flowlabel", "deb/usr/bin/flowlabel-many")
        scripts = [path for path in files_below("deb") if os.access(path, os.X_OK) and path not in programs]
        self.assertEqual({read(path).split("\n")[0] for path in scripts}, {
            "#!/usr/bin/python3", "#!/usr/bin/env -S --block-signal=INT /usr/bin/python3 -I"})

    def test_same_files(self):
        """Both have the same programs and commands."""
        names = output("tar", "-tf", self.tree.path(self.archive)).split()
        found = {name.partition("/")[2] for name in names if not name.endswith("/") and "/share/" not in name}
        there = {path.removeprefix("deb/usr/") for path in files_below("deb/usr")}
        self.assertEqual(found, {name for name in there if not name.startswith("share/")})

    def test_oldest_library(self):
        """The program needs no newer C library than the package requires."""
        versions = re.findall(rb"GLIBC_2\.(\d+)", read_bytes(self.tree.path(BUILT)))
        depends = output("dpkg-deb", "-f", self.tree.path(self.package), "Depends")
        self.assertEqual(depends, f"libc6 (>= 2.{max(map(int, versions))})\n")


class ArchiveCase(PackageCase):
    """Tests of the archive in a folder in use."""

    MODES = {"bin": 0o775, "lib": 0o755, "share": 0o711, "share/doc": 0o700, "share/man": 0o2755}

    @classmethod
    def prepare(cls):
        super().prepare()
        cls.top = os.path.abspath("top")
        cls.install, cls.remove = lines_of_readme(cls.archive, cls.top)
        cls.unpack(cls.top)
        cls.doc = f"{cls.top}/share/doc/flowlabel"
        cls.path = f"{os.path.dirname(sys.executable)}:/usr/bin:/bin"

    @classmethod
    def unpack(cls, top):
        """Unpacks the archive into a new folder with other permissions."""
        os.mkdir(top)
        for name, mode in cls.MODES.items():
            os.mkdir(f"{top}/{name}")
            os.chmod(f"{top}/{name}", mode)
        output("sh", "-c", cls.install.replace(cls.top, top), cwd=cls.tree.root)


@needs("rt", "strip", "objcopy", "nm", "dpkg-deb")
class Unpacked(ArchiveCase):
    """What is unpacked, and removed again."""

    def test_permissions(self):
        self.assertEqual({name: os.stat(f"{self.top}/{name}").st_mode & 0o7777 for name in self.MODES}, self.MODES)

    def test_record(self):
        """What PROVED says."""
        note, record = read(f"{self.doc}/PROVED"), read(self.tree.path(RECORD))
        self.assertEqual([line for line in record.splitlines() if f"    {line}\n" not in note], [])
        self.assertEqual(record.split()[1], digest(self.tree.path(BUILT)))
        self.assertIn(f"    {digest(f'{self.top}/bin/flowlabel')}\n", note)
        self.assertIn("Every function of the programs' own code was proved", note)

    def test_licences(self):
        text = read(f"{self.doc}/copyright")
        self.assertEqual(re.findall(r"(?m)^([A-Z][A-Za-z-]*): ", text)[:5],
                         ["Format", "Upstream-Name", "Files", "Copyright", "License"])
        self.assertEqual([line for line in text.split("\n") if line and not re.match(
            r"(?:Format|Upstream-Name|Files|Comment|Copyright|License): .|  ?\S| {3,}\S", line)], [])
        self.assertEqual(re.findall(r"contains the crate (\w+) ", text), LINKED)
        self.assertEqual([notice for notice in NOTICES if notice not in text], [])

    def test_command_alone(self):
        """The commands run without the pages, and without flowlabel on the path."""
        os.rename(self.doc, "pages")
        self.addCleanup(os.rename, "pages", self.doc)
        found = output(f"{self.top}/bin/flowlabel-lint", ROOT / "examples/offices.txt", "10.1.20.77",
                       env={"PATH": self.path})
        self.assertEqual(found, "10.1.20.77: line 8: 10.1.20.0/24    Berlin guests\n")

    def test_removed(self):
        """Nothing but the folders that were in use is left."""
        top = os.path.abspath("to-remove")
        self.unpack(top)
        output("sh", "-c", self.remove.replace(self.top, top), cwd=self.tree.root)
        self.assertEqual(files_below(top), [])
        self.assertEqual(sorted(os.listdir(top)), ["bin", "lib", "share"])
        self.assertFalse(os.path.exists(f"{top}/share/doc/flowlabel"))


@needs("rt", "strip", "objcopy", "nm", "dpkg-deb")
class PagesOfArchive(ArchiveCase):
    """The examples of the installed pages."""

    @rows(("README.md", 3), ("examples/README.md", 40), ("BILL.md", 15), ("GUIDE.md", 25), ("FORMATS.md", 3),
          ("TABLES.md", 5))
    def test_commands_of_page(self, name, least):
        """The examples of an installed page, but for those that need other programs."""
        from support import examples
        folder = os.path.abspath(f"pages of {name.replace('/', ' ')}")
        shutil.copytree(self.doc, folder)
        os.mkdir(f"{folder}/out")
        os.chdir(folder)
        self.addCleanup(os.chdir, os.path.dirname(folder))
        page = examples.Page(name, with_others=False, FLOWLABEL="", PATH=f"{self.top}/bin:{self.path}")
        self.assertEqual((page.faults(), len(page.examples) > least), ([], True))


@not_in_ci("it fetches a Debian tree from a mirror, which may not answer")
@needs("rt", "strip", "objcopy", "nm", "dpkg-deb", "mmdebstrap")
@unittest.skipIf(os.geteuid() != 0, "only root can make a Debian tree")
class InBareTree(PackageCase):
    """Each package in a bare Debian tree, as a new user would use it."""

    @classmethod
    def prepare(cls):
        super().prepare()
        cls.bare = os.path.abspath("bare")
        output("mmdebstrap", "--quiet", "--variant=minbase", f"--include={READERS}",
               platform.freedesktop_os_release()["VERSION_CODENAME"], cls.bare)

    def shell(self, line):
        """Returns the output of a shell in the tree for a line, including errors."""
        # The last variable, which a desktop sets, has fish find the completions of /usr/local.
        environment = {"PATH": "/usr/local/bin:/usr/bin:/bin:/usr/sbin:/sbin", "HOME": "/root", "LC_ALL": "C",
                       "XDG_DATA_DIRS": "/usr/local/share:/usr/share"}
        return run("chroot", self.bare, "sh", "-c", f"exec 2>&1; {line}", env=environment).stdout.decode()

    @rows((0, "/usr/local", ""), (1, "/usr", ".gz"))
    def test_use(self, which, prefix, ending):
        name = (self.archive, self.package)[which]
        shutil.copy(self.tree.path(name), f"{self.bare}/tmp")
        install, remove = lines_of_readme(f"/tmp/{os.path.basename(name)}")
        self.shell(install)
        for line, wanted in (*LINES, ("flowlabel --version", f"flowlabel {self.version}\n")):
            line, wanted = line.replace("PREFIX", prefix), wanted.replace("PREFIX", prefix).replace("GZ", ending)
            with self.subTest(line=line):
                self.assertEqual(self.shell(line), wanted)
        self.shell(remove)
        self.assertEqual(self.shell(LEFT), "")
