"""Credentials of plain/rules.py as texts: by field, and in the way of a credential line (docs/FORMATS.md, "Report")."""
from plain.rules import Credential, Ids

FIELDS = ("uid", "gid", "groups", "inh", "prm", "eff", "bnd", "amb", "sec", "nnp")
Fields = dict[str, str]     # the text of each of them


def credentials(fields: Fields) -> str:
    """The line's text of fields. KeyError where one is missing."""
    return " ".join(f"{name}={fields[name]}" for name in FIELDS)


def ids_of(text: str) -> Ids:
    """The ids between commas. ValueError where one is none."""
    return tuple(map(int, text.split(",")))


def ids_text(ids: Ids) -> str:
    """The same back."""
    return ",".join(map(str, ids))


def credential_of(fields: Fields) -> Credential:
    """The credential of fields. KeyError where one is missing, ValueError where its text is odd."""
    return Credential(
        uid=ids_of(fields["uid"]), gid=ids_of(fields["gid"]),
        groups=frozenset(map(int, fields["groups"].split(","))) if fields["groups"] != "-" else frozenset(),
        inh=int(fields["inh"], 16), prm=int(fields["prm"], 16), eff=int(fields["eff"], 16), bnd=int(fields["bnd"], 16),
        amb=int(fields["amb"], 16), sec=int(fields["sec"], 16), nnp=fields["nnp"] == "1")


def fields_from(cred: Credential) -> Fields:
    """The fields of a credential."""
    return {"uid": ids_text(cred.uid), "gid": ids_text(cred.gid),
            "groups": ",".join(map(str, sorted(cred.groups))) or "-", "inh": f"{cred.inh:016x}",
            "prm": f"{cred.prm:016x}", "eff": f"{cred.eff:016x}", "bnd": f"{cred.bnd:016x}", "amb": f"{cred.amb:016x}",
            "sec": f"{cred.sec:02x}", "nnp": str(int(cred.nnp))}
