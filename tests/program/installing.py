"""What the script `lrls` does to install the programs and to make a package of them, by the
stand-ins of tests/common/checkouts.py."""

import os
import re
import shutil
import stat
from typing import Any, Iterator, List, Tuple

from tests import TOP
from tests.common.cases import Cases, read
from tests.common.checkouts import Checkout, write
from tests.common.links import dead, pages_below
from tests.program.starting import GIT, MADE, timeless

INSTALL_USAGE = "usage: lrls install FOLDER | install --prefix FOLDER\n"
PACKAGE_USAGE = "usage: lrls package [FOLDER]\n"

# What Debian's tools say, as far as the script asks them. `dpkg-deb` makes a list of the package's
# files and its control file; `strip` notes what it is asked for.
TOOLS = {
    "dpkg": '#!/bin/sh\n[ "$*" = --print-architecture ] && echo riscv64\n',
    "strip": '#!/bin/sh\necho "strip $*" >> "$TMPDIR/called"\n',
    "dpkg-deb": """#!/bin/sh
while [ $# -gt 2 ]; do shift; done
{ (cd "$1" && { find . ! -type d; find . -type d ! -perm 755; }); cat "$1/DEBIAN/control"; } > "$2"
""",
}
# A program that calls two versions of the C library.
CALLS = "#!/bin/sh\nexit 7\n\0GLIBC_2.2.5\0GLIBC_2.34\0"
CONTROL = """\
Package: lrls
Version: 2.3.4-1
Architecture: riscv64
Maintainer: A <a@b.c>
Installed-Size: N
Depends: libc6 (>= 2.34), python3 (>= 3.8)
Recommends: python3 (>= 3.11), python3-aiohttp, libjs-codemirror
Section: devel
Priority: optional
Description: language server for a grammar of your own
"""

# What an installation of a checkout has, with a folder `ide`, besides the pages of docs/.
LAID_OUT = """bin/lrls bin/lrls-ide bin/lrls-page lib/lrls/lrls lib/lrls/lrls-ide share/doc/lrls/CHANGELOG.md share/doc/lrls/README.md share/doc/lrls/editors
share/doc/lrls/grammars share/doc/lrls/ide share/lrls/docs share/lrls/editors/README.md share/lrls/editors/emacs.el
share/lrls/editors/neovim.lua share/lrls/grammars/g0.lr share/lrls/help share/lrls/help-of-lrls-ide
share/lrls/ide/lrls-ide share/lrls/ide/lrls-notes share/lrls/ide/lrls-page share/lrls/ide/settings.json share/lrls/lrls share/lrls/show share/lrls/sizes share/lrls/trees share/lrls/version
share/man/man1/lrls-ide.1 share/man/man1/lrls-playground.1 share/man/man1/lrls.1 share/man/man5/lrgrammar.5""".split()
LAID_OUT += [f"share/doc/lrls/docs/{name}" for name in os.listdir(os.path.join(TOP, "docs"))]


def things_below(folder: str) -> List[str]:
    """The files and links in a folder, by their paths."""
    found = [
        os.path.join(where, name)
        for where, folders, names in os.walk(folder)
        for name in [*folders, *names]
    ]
    return sorted(
        os.path.relpath(path, folder)
        for path in found
        if os.path.islink(path) or not os.path.isdir(path)
    )


def unreadable_files(folder: str) -> List[Any]:
    """The files and folders in a folder that not everyone may read."""
    found = [
        os.path.join(where, name)
        for where, folders, names in os.walk(folder)
        for name in [*folders, *names]
    ]
    return [
        path
        for path in found
        if not os.path.islink(path) and os.stat(path).st_mode & 0o044 != 0o044
    ]


def installs(cases: Cases, checkout: "Checkout") -> None:
    """What `install FOLDER` puts there, and what it refuses before anything is built."""
    into = os.path.join(checkout.top, "some where")
    calls: List[List[str]] = [[], [into, into], ["-x"], ["--prefix"], ["--prefix", into, into]]
    for words in calls:
        cases.check(
            f"install, words {words}", ("", INSTALL_USAGE, 2), checkout.run("install", *words)
        )
    missing = ("", f"lrls: cannot install into {into}: it is no folder; make it first\n", 1)
    cases.check("install, no folder", missing, checkout.run("install", into))
    own = (
        "",
        "lrls: cannot install into .: the script `lrls` lies there; name another folder\n",
        1,
    )
    cases.check("install over the script", own, checkout.run("install", "."))
    os.mkdir(into)
    os.symlink("../lrls", os.path.join(into, "lrls"))
    said = f"{MADE}lrls: installed as {into}/lrls\n"
    cases.check("install builds", ("", said, 0), timeless(checkout.run("install", "some where")))
    installed = os.path.join(into, "lrls")
    cases.check("what was a link is the program", True, stat.S_ISREG(os.lstat(installed).st_mode))
    cases.check(
        "the copy", ("quick, ran check x\n", "", 7), checkout.run("check", "x", script=installed)
    )
    cases.check(
        "install again", ("", f"lrls: installed as {into}/lrls\n", 0), checkout.run("install", into)
    )
    cases.check("nothing beside it", ["lrls"], os.listdir(into))


def add_ide(checkout: "Checkout") -> None:
    """A second program, and a folder `ide` as a later one may be: with a command of its own, a file
    that is none, settings, and what Python and its tools keep."""
    checkout.placed("crates.txt", "a:\nb: a\nlrls: b\nlrls_ide: a\n")
    checkout.placed("crates/lrls_ide/src/main.rt", "")
    checkout.forget()
    checkout.run("build")
    os.chmod(checkout.placed("ide/lrls-page", '#!/bin/sh\necho "page $*"\n'), 0o755)
    for name in ("lrls-notes", "settings.json", "__pycache__/x.pyc", "out/mypy/x"):
        os.chmod(checkout.placed(f"ide/{name}", ""), 0o600)


def prefixes(cases: Cases, checkout: "Checkout") -> None:
    """What `install --prefix` lays out, also over another installation."""
    add_ide(checkout)
    prefix = os.path.join(checkout.top, "new", "pre fix")
    refused = ("", "lrls: cannot install into x: File exists\n", 1)
    cases.check("install --prefix over a file", refused, checkout.run("install", "--prefix", "x"))
    own = (
        "",
        "lrls: cannot install into .: the script `lrls` lies there; name another folder\n",
        1,
    )
    cases.check("install --prefix over the script", own, checkout.run("install", "--prefix", "."))
    said = f"lrls: installed; the command is {prefix}/bin/lrls\n"
    for time in ("first", "second"):
        cases.check(
            f"install --prefix, the {time} time",
            ("", said, 0),
            checkout.run("install", "--prefix", prefix),
        )
        cases.check(f"what is laid out the {time} time", sorted(LAID_OUT), things_below(prefix))
        cases.check(f"what not everyone may read the {time} time", [], unreadable_files(prefix))
        write(os.path.join(prefix, "share", "lrls", "grammars", "old.lr"), "")
        os.remove(os.path.join(prefix, "bin", "lrls"))
        os.symlink("../../../x", os.path.join(prefix, "bin", "lrls"))
    before = read(checkout.path("x"))
    checkout.run("install", "--prefix", prefix)
    cases.check("what a link led to before", before, read(checkout.path("x")))
    for name in ("man1/lrls.1", "man5/lrgrammar.5"):
        page = read(os.path.join(TOP, "man", os.path.basename(name)))
        cases.check(f"installed: {name}", page, read(os.path.join(prefix, "share", "man", name)))
    pages = pages_below(os.path.join(prefix, "share"))
    cases.check("the installed pages", True, len(pages) > 15)
    cases.check(
        "their dead links",
        {},
        {page: found for page in pages for found in [list(dead(page))] if found},
    )
    hindered(cases, checkout, prefix)
    moved = os.path.join(checkout.top, "moved")
    os.rename(prefix, moved)
    installed(cases, checkout, moved)


def installed(cases: Cases, checkout: "Checkout", moved: str) -> None:
    """An installation works where it was moved to, by its own path and by links."""
    link = os.path.join(checkout.bin, "installed")
    os.symlink(os.path.join(moved, "bin", "lrls"), link)
    os.symlink("/usr/bin/python3", os.path.join(checkout.bin, "python3"))
    out, err, status = checkout.run("--version")
    version = f"{out}lrls-ide: {out.splitlines()[-1]}\n", err, status
    no_python = "lrls: `lrls show` needs Python 3.8 or later, and no folder of PATH has the command python3\n"
    for script in (
        link,
        os.path.join(moved, "bin", "lrls"),
        os.path.join(moved, "share", "lrls", "lrls"),
    ):
        cases.check(
            f"{script} check",
            ("quick, ran check x\n", "", 7),
            checkout.run("check", "x", script=script, cwd="/"),
        )
        cases.check(
            f"{script} --version", version, checkout.run("--version", script=script, cwd="/")
        )
        out, err, status = checkout.run("sizes", checkout.path("sound.lr"), script=script)
        cases.check(f"{script} sizes", (True, "", 0), ("nonterminals" in out, err, status))
    os.remove(os.path.join(checkout.bin, "python3"))
    for command in ("show", "sizes"):
        said = ("", no_python.replace("show", command), 1)
        cases.check(
            f"{command} without python3", said, checkout.run(command, "x", "y", script=link)
        )
    out, err, status = checkout.run("--help", script=link)
    cases.check(
        "the help of an installation",
        (True, False, "", 0),
        ("show [--tokens" in out, "package" in out, err, status),
    )
    cases.check(
        "a carried command",
        ("page a\n", "", 0),
        checkout.run("a", script=os.path.join(moved, "bin", "lrls-page")),
    )
    for editors in (os.path.join(moved, "bin"), os.path.join(moved, "share", "lrls", "ide")):
        installed_ide(cases, checkout, moved, os.path.join(editors, "lrls-ide"), version)


def installed_ide(
    cases: Cases, checkout: "Checkout", moved: str, script: str, version: Tuple[str, str, int]
) -> None:
    """The other command of an installation finds the grammars that came with it, where no others
    are named."""
    link = os.path.join(checkout.bin, os.path.basename(os.path.dirname(script)))
    os.symlink(script, link)
    own = ["--grammars", os.path.join(moved, "share", "lrls", "grammars")]
    rows: List[Tuple[List[str], List[str]]] = [
        (["x"], [*own, "x"]),
        (["--settings", "a b"], [*own, "--settings", "a b"]),
        (["--grammars", "some", "x"], ["--grammars", "some", "x"]),
        (["--grammars=some", "x"], ["--grammars=some", "x"]),
        (["show", "x"], [*own, "show", "x"]),
    ]
    for words, awaited in rows:
        ran = checkout.run(*words, script=link, cwd="/")
        cases.check(f"{script} {words}", (f"quick, ran {' '.join(awaited)}\n", "", 7), ran)
    cases.check(f"{script} --version", version, checkout.run("--version", script=link))
    out, err, status = checkout.run("--help", script=link)
    told = ("usage: lrls-ide" in out, "usage: lrls " in out, err, status)
    cases.check(f"{script} --help", (True, False, "", 0), told)


def hindered(cases: Cases, checkout: "Checkout", prefix: str) -> None:
    """A file where a folder has to be: what is wrong is said, and the status is 1."""
    manuals = os.path.join(prefix, "share", "man")
    shutil.rmtree(manuals)
    write(manuals, "")
    out, err, status = checkout.run("install", "--prefix", prefix)
    said = f"lrls: not installed into {prefix}, or in part only: Not a directory: {manuals}/man5\n"
    awaited = ("", [said, said.replace("man5", "man1")], 1)
    cases.check(
        "install --prefix, hindered", (awaited[0], True, 1), (out, err in awaited[1], status)
    )
    os.remove(manuals)
    checkout.run("install", "--prefix", prefix)


def packages(cases: Cases, checkout: "Checkout") -> None:
    """What `package` gives to dpkg-deb, and what it says where it can't."""
    for words in (["a", "b"], ["-x"]):
        cases.check(
            f"package, words {words}", ("", PACKAGE_USAGE, 2), checkout.run("package", *words)
        )
    missing = ("", "lrls: cannot make a package in nothing: it is no folder; make it first\n", 1)
    cases.check("package, no folder", missing, checkout.run("package", "nothing"))
    without = (
        "lrls: making a package needs the command dpkg, and no folder of PATH has it\n"
        "lrls: on Debian: apt-get install dpkg binutils\n"
    )
    cases.check("package, no dpkg", ("", without, 1), checkout.run("package"))
    for name, text in TOOLS.items():
        checkout.stand_in(text, name)
    folder = checkout.path("links")
    package = os.path.join(folder, "lrls_2.3.4-1_riscv64.deb")
    write(checkout.path("out", "quick", "lrls"), CALLS, 0o755)
    said = f"lrls: made {package}\nlrls: to install it, as root: apt-get install {package}\n"
    checkout.called()
    cases.check("package", ("", said, 0), checkout.run("package", "links"))
    stripped = [line.split()[:-1] for line in checkout.called() if line.startswith("strip")]
    cases.check("the compiler's mark stays", [["strip", "--strip-unneeded"]] * 2, stripped)
    with open(package, encoding="utf-8") as file:
        files, mark, rest = file.read().partition("Package: ")
    cases.check(
        "the files of a package", sorted(packed()), sorted(line[2:] for line in files.splitlines())
    )
    head, _, described = (mark + rest).partition(" lrls gives editor support")
    cases.check(
        "its fields", CONTROL, re.sub(r"Installed-Size: [1-9]\d*", "Installed-Size: N", head)
    )
    cases.check("its description ends", True, described.endswith("lrls(1) and lrgrammar(5).\n"))
    for more, named in [
        ({"DEBEMAIL": "d@e"}, "lrls <d@e>"),
        ({"DEBEMAIL": "d@e", "DEBFULLNAME": "D E"}, "D E <d@e>"),
    ]:
        checkout.run("package", "links", more=more)
        cases.check(
            f"the maintainer by {more}", True, f"Maintainer: {named}\n".encode() in read(package)
        )
    unmade(cases, checkout, folder, package)


def packed() -> Iterator[str]:
    """The files that a package has."""
    changed = {"share/doc/lrls/CHANGELOG.md"} | {
        name for name in LAID_OUT if name.startswith("share/man/")
    }
    yield from (f"usr/{name}" for name in LAID_OUT if name not in changed)
    yield from (f"usr/{name}.gz" for name in changed if name.startswith("share/man/"))
    yield from (
        f"usr/share/doc/lrls/{name}"
        for name in ("copyright", "changelog.gz", "changelog.Debian.gz")
    )
    yield "DEBIAN/control"


def unmade(cases: Cases, checkout: "Checkout", folder: str, package: str) -> None:
    """A package that can't be made whole isn't there at all, and the one before stays."""
    before, names = read(package), sorted(os.listdir(folder))
    checkout.stand_in(
        '#!/bin/sh\nwhile [ $# -gt 1 ]; do shift; done\necho a part > "$1"\necho no space left >&2\nexit 2\n',
        "dpkg-deb",
    )
    said = "lrls: dpkg-deb: no space left\nlrls: no package was made\n"
    cases.check("package, a full disk", ("", said, 1), checkout.run("package", "links"))
    cases.check("what is there then", (before, names), (read(package), sorted(os.listdir(folder))))
    cases.check("folders left behind by a package", [], checkout.left())


def run(cases: Cases, folder: str) -> None:
    checkout = Checkout(folder)
    checkout.kit()
    checkout.forget()
    os.mkdir(checkout.path("links"))
    checkout.placed("CHANGELOG.md", "# Changes\n\n## Unreleased\n\n## 2.3.4\n")
    checkout.placed("sound.lr", 'lrgrammar 1\ntoken X = "x"\nstart S\nS = X\n')
    checkout.stand_in(GIT, "git")
    for name in ("changed", "remote"):
        write(os.path.join(checkout.temporary, name), "")
    installs(cases, checkout)
    prefixes(cases, checkout)
    packages(cases, checkout)
