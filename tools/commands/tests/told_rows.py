"""Rows of worlds as tests have them, as docs/FORMATS.md spells them: of user namespaces and of files."""

Map = list[list[int]]


def space_row(name: str, owner: int, *maps: Map, parent: str = "init") -> str:
    """A user namespace; its uid_map and its gid_map where they are given."""
    lines = ["[[space]]", f'name = "{name}"', f'parent = "{parent}"', f"owner = {owner}",
             *(f"{key} = {extents}" for key, extents in zip(("uid_map", "gid_map"), maps))]
    return "".join(line + "\n" for line in lines)


def file_row(path: str, mode: str, uid: int = 0, gid: int = 0) -> str:
    """A file."""
    return f'[[file]]\npath = "{path}"\nuid = {uid}\ngid = {gid}\nmode = "{mode}"\n'
