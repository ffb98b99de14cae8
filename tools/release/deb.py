#!/usr/bin/env python3
"""Makes Debian's package of the built program and the commands around it: `make deb` calls it.

  deb.py [--top FOLDER] [--into FOLDER] [--maintainer WHO] [--homepage URL] PROGRAM

The package is credaudit_VERSION_ARCHITECTURE.deb, in `build` of the repository if --into names no other folder: what
`make install` puts below /usr, for the architecture that PROGRAM was built for, with the libraries that it needs
(dpkg-shlibdeps). From one tree and one program it is the same byte for byte on machines with the same dpkg. It needs
dpkg-dev, and no root. Its last line tells its sum.
"""
import argparse
import gzip
import os
import re
import subprocess
import sys
import tempfile

import tools_path
from make import kit
from make.kit import Failed
from release import built, changes, debian_texts, dist, tree_files
from release.built import Program
from release.debian_texts import Named

NOBODY = "Whoever built this package <nobody@example.org>"
LIBRARY, DOCUMENTS = os.path.join("usr", "lib", "credaudit"), os.path.join("usr", "share", "doc", "credaudit")
FIRST = "#!/usr/bin/env python3\n"
# zsh of Debian reads the completions of packages here, and those of the machine's own in zsh/site-functions.
OWN_PLACES = ("PREFIX=/usr", "ZSH_COMPLETIONS=/usr/share/zsh/vendor-completions")
BEST = 9


def run(words: list[str], **more: str) -> str:
    """What a command writes. Fails where it fails; what it tells is passed on."""
    environment = {**os.environ, "LC_ALL": "C.UTF-8", "TZ": "UTC", **more}
    try:
        done = subprocess.run(words, env=environment, stdin=subprocess.DEVNULL, stdout=subprocess.PIPE, text=True,
                              check=False)
    except OSError as error:
        raise Failed(f"{words[0]} can't be started: {error.strerror}") from error
    if done.returncode:
        raise Failed(f"{words[0]} ended with status {done.returncode}")
    return done.stdout


def zipped(path: str) -> None:
    """Packs a file, without its name and date."""
    with open(path, "rb") as file:
        data = file.read()
    with open(path + ".gz", "wb") as out, gzip.GzipFile("", "wb", BEST, out, mtime=0) as packed:
        packed.write(data)
    os.remove(path)


def left_out(root: str, path: str) -> bool:
    """Whether a document is no use in a package: a license, which Debian has elsewhere, or an example's script that
    only a checkout can run."""
    if os.path.basename(path).startswith("LICENSE"):
        return True
    with open(os.path.join(root, path), "rb") as file:
        return path.endswith(".py") and b"tools_path" in file.read()


def as_debian_has_it(root: str) -> None:
    """Packs the manual pages, names Debian's Python in the commands, and leaves out some documents."""
    for path in debian_texts.files(os.path.join(root, "usr", "share", "man")):
        zipped(os.path.join(root, "usr", "share", "man", path))
    documents = os.path.join(root, DOCUMENTS)
    for path in debian_texts.files(documents):
        if left_out(documents, path):
            os.remove(os.path.join(documents, path))
    for path in debian_texts.files(root):
        full = os.path.join(root, path)
        if not os.path.islink(full) and os.access(full, os.X_OK):
            with open(full, "rb") as file:
                data = file.read()
            if data.startswith(FIRST.encode()):
                with open(full, "wb") as file:
                    file.write(data.replace(FIRST.encode(), FIRST.replace("env ", "").encode(), 1))


def installed(top: str, program: Program, work: str) -> str:
    """Installs a copy of the tree, with the program, below a folder; the folder."""
    tree, root = os.path.join(work, "tree"), os.path.join(work, "root")
    dist.laid_out(top, program, tree)
    run(["make", "-s", "-C", tree, "install", f"DESTDIR={root}", *OWN_PLACES], MAKEFLAGS="")
    as_debian_has_it(root)
    return root


def libraries(work: str, root: str) -> str:
    """The packages of the libraries that the program needs."""
    put(os.path.join(work, "debian", "control"), "Source: credaudit\n\nPackage: credaudit\nArchitecture: any\n")
    os.makedirs(os.path.join(root, "DEBIAN"))       # by which it knows what is a package's
    # It names its files by the folder in which it stands.
    told = run(["sh", "-c", 'cd "$1" && exec dpkg-shlibdeps -O "$2"', "sh", work,
                os.path.join(root, "usr", "bin", "credaudit")])
    found = re.search(r"^shlibs:Depends=(.+)$", told, re.MULTILINE)
    if found is None:
        raise Failed("dpkg-shlibdeps names no library that the program needs")
    return found[1]


def put(path: str, text: str, mode: int = tree_files.PLAIN) -> None:
    """Writes a text of the package."""
    os.makedirs(os.path.dirname(path), exist_ok=True)
    with open(path, "w", encoding="ascii") as file:
        file.write(text)
    os.chmod(path, mode)


def filled(root: str, named: Named, versions: list[changes.Version], needed: str) -> None:
    """Puts in what a package has beside what is installed: who holds the rights, what changed, and its control
    files."""
    put(os.path.join(root, DOCUMENTS, "copyright"), debian_texts.template("copyright"))
    put(os.path.join(root, DOCUMENTS, "changelog"), debian_texts.changelog(versions, named))
    zipped(os.path.join(root, DOCUMENTS, "changelog"))
    put(os.path.join(root, "usr", "share", "lintian", "overrides", "credaudit"),
        debian_texts.template("lintian-overrides"))
    texts = {"control": debian_texts.control(named, root, needed), "md5sums": debian_texts.sums(root)}
    for name, text in texts.items():
        put(os.path.join(root, "DEBIAN", name), text)
    for name in ("postinst", "prerm"):
        put(os.path.join(root, "DEBIAN", name), debian_texts.template(name), tree_files.RUN)


def made(top: str, program: Program, into: str, maintainer: str, homepage: str) -> str:
    """Makes the package; its path."""
    versions = changes.of(top)
    named = Named(versions[0].named(program.architecture, program.sum), program.architecture, maintainer, homepage)
    seconds = int(versions[0].day().timestamp())
    path = os.path.join(os.path.abspath(into), f"credaudit_{named.version}_{named.architecture}.deb")
    os.makedirs(into, exist_ok=True)
    with tempfile.TemporaryDirectory() as work:
        root = installed(top, program, work)
        filled(root, named, versions, libraries(work, root))
        tree_files.settled(root, seconds)
        # One thread, since more cut the text otherwise.
        run(["dpkg-deb", "--root-owner-group", "-Zxz", "--threads-max=1", "--build", root, path + ".new"],
            SOURCE_DATE_EPOCH=str(seconds))
    os.replace(path + ".new", path)
    return path


def main() -> int:
    """The words of the script."""
    ask = argparse.ArgumentParser(description="Makes Debian's package of the built program.")
    ask.add_argument("--top", default=tools_path.TOP, metavar="FOLDER", help="the repository, if it isn't this one")
    ask.add_argument("--into", metavar="FOLDER", help="where the package is put")
    ask.add_argument("--maintainer", default=NOBODY, metavar="WHO", help="who answers for it: NAME <ADDRESS>")
    ask.add_argument("--homepage", default="", metavar="URL")
    ask.add_argument("program", metavar="PROGRAM")
    asked = ask.parse_args()

    def job() -> int:
        try:
            return dist.told(made(asked.top, built.look(asked.program),
                                  asked.into or os.path.join(asked.top, "build"), asked.maintainer, asked.homepage))
        except ValueError as error:
            raise Failed(str(error)) from error
    return kit.carried_out(job)


if __name__ == "__main__":
    sys.exit(main())
