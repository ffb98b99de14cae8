"""The rows of a certificate in words: what members of each may still hold (docs/BOUNDS.md, "Rows")."""
from ..formats.certificates import Ids, Row
from ..replay.spaces_of_report import SpaceTold
from .id_words import ids_words, set_words


def title(row: Row, name: str) -> str:
    """Whom a row speaks of."""
    return f"in user namespaces that are made later in {name}" if row.fresh else f"in {name}"


def kinds(row: Row, space: SpaceTold | None) -> list[str]:
    """The ids of the row, of users and of groups: in one sentence where they are all the same."""
    found = []
    for what, all_ids, effective, files, extents in (
            ("user", "u", "eu", "fu", None if space is None else space.uid_map),
            ("group", "g", "eg", "fg", None if space is None else space.gid_map)):
        told: list[Ids] = [row.ids[key] for key in (all_ids, effective, files)]
        if told[0] == told[1] == told[2]:
            found.append(f"{what} ids: {ids_words(told[0], extents)}")
        else:
            found += [f"effective {what} ids: {ids_words(told[1], extents)}",
                      f"real and saved {what} ids: {ids_words(told[0], extents)}",
                      f"{what} ids for access to files: {ids_words(told[2], extents)}"]
    extents = None if space is None else space.gid_map
    return [*found, f"supplementary groups: {ids_words(row.ids['s'], extents)}"]


def lines(row: Row, space: SpaceTold | None) -> list[str]:
    """What members of a row may hold. Ids of a standing namespace are told with what they are inside."""
    if not row.has_members():
        return ["nobody can be there"]
    own = None if row.fresh else space
    over = "the one where they stand" if row.fresh else "it"
    found = [*kinds(row, own), f"capabilities over {over}: {set_words(row.sets['p'])}"]
    if row.sets["i"]:
        found.append(f"inheritable: {set_words(row.sets['i'])}")
    found.append(f"bounding set: {set_words(row.sets['b'])}")
    found.append("each member has no_new_privs" if row.limited else "a member may lack no_new_privs")
    if not row.noroot_clear:
        found.append("each member has SECBIT_NOROOT" + ("" if row.lock_clear else ", locked"))
    found.append(f"ids that may be mapped there: users {ids_words(row.ids['mu'])}; groups {ids_words(row.ids['mg'])}")
    return found


def short(row: Row) -> str:
    """A row in one line, for a drawing."""
    if not row.has_members():
        return "nobody"
    return (f"users {ids_words(row.ids['eu'])}; groups {ids_words(row.ids['eg'])}, supplementary"
            f" {ids_words(row.ids['s'])}; {set_words(row.sets['p'])}"
            + ("; no_new_privs" if row.limited else ""))
