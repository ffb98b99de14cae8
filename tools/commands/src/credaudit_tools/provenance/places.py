"""Where the program may lie, and the stamps beside it."""
import os
import shutil

PACKAGE = os.path.dirname(os.path.dirname(os.path.abspath(__file__)))
# Installed, the package lies in lib/credaudit; in a checkout, in tools/commands/src.
LIBRARY = os.path.dirname(PACKAGE)
INSTALLED = os.path.normpath(os.path.join(LIBRARY, "..", "..", "bin", "credaudit"))
CHECKOUT = os.path.normpath(os.path.join(LIBRARY, "..", "..", ".."))
BUILT = os.path.join(CHECKOUT, "crates", "credaudit", "out", "credaudit")
BUILD, TREE = ".build", "credaudit.tree"    # the end of a build's stamp, and the name of a tree's


def named() -> str | None:
    """The program that the variable CREDAUDIT names."""
    return os.environ.get("CREDAUDIT") or None


def find() -> str | None:
    """The program: what the variable CREDAUDIT names, else credaudit of the PATH, else what was installed beside these
    commands, else what was built in this checkout. None where there is none."""
    own = named()
    for candidate in [own] if own else [shutil.which("credaudit") or "", INSTALLED, BUILT]:
        if candidate and os.access(candidate, os.X_OK) and not os.path.isdir(candidate):
            return os.path.abspath(candidate)
    return None


def in_checkout() -> bool:
    """Whether this package is that of a checkout."""
    return LIBRARY == os.path.join(CHECKOUT, "tools", "commands", "src") and \
        os.path.isfile(os.path.join(CHECKOUT, "crates.txt"))


def stamps_of(program: str) -> list[str]:
    """Where the stamp of a program may stand: where `make` writes it, and where `make install` does."""
    path = os.path.realpath(program)
    library = os.path.join(os.path.dirname(path), "..", "lib", "credaudit", os.path.basename(path) + BUILD)
    return [path + BUILD, os.path.normpath(library)]
