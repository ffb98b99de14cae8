"""The tables and keys of a world (docs/FORMATS.md, "World"), and what people write in their place."""

TABLES = ("space", "mount", "file", "process")
# Of each table its keys with their kind, and which of them are required.
KEYS = {
    "whole": {"log": "log", "space": "rows", "mount": "rows", "file": "rows", "process": "rows", "filter": "table"},
    "space": {"name": "name", "parent": "text", "owner": "id", "uid_map": "map", "gid_map": "map", "setgroups": "word",
              "creator_setfcap": "flag"},
    "mount": {"name": "name", "space": "text", "nosuid": "flag", "noexec": "flag", "fs_uid_map": "map",
              "fs_gid_map": "map",
              "uid_map": "map", "gid_map": "map"},
    "file": {"path": "path", "mount": "text", "uid": "id", "gid": "id", "mode": "mode", "caps": "attribute",
             "interpreter": "text"},
    "process": {"pid": "pid", "parent": "pid", "space": "text", "uid": "ids", "gid": "ids", "groups": "groups",
                "permitted": "set", "effective": "set", "inheritable": "set", "bounding": "set", "ambient": "set",
                "securebits": "byte", "no_new_privs": "flag"},
    "filter": {"exclude": "calls"},
}
REQUIRED = {"whole": ("log",), "space": ("name", "parent", "owner"), "mount": ("name",),
            "file": ("path", "uid", "gid", "mode"), "process": ("pid",), "filter": ()}
CALLS = ("setuid setreuid setresuid setfsuid setgid setregid setresgid setfsgid setgroups capset bset_drop amb_raise"
         " amb_lower amb_clear securebits keepcaps no_new_privs fork clone_user unshare setns write_uid_map"
         " write_gid_map write_setgroups execve exit install").split()
IDS = "uid = [real, effective, saved, fs], or one number for all four"
GROUP_IDS = "gid = [real, effective, saved, fs], or one number for all four"
# What is written for a key of another name, by table; the last row serves all.
MEANT = {
    "process": {
        **dict.fromkeys(("euid", "ruid", "suid", "fsuid", "uids", "Uid", "user"), IDS),
        **dict.fromkeys(("egid", "rgid", "sgid", "fsgid", "gids", "Gid", "group"), GROUP_IDS),
        **dict.fromkeys(("caps", "capabilities", "cap"), "permitted and effective, as capability texts"),
        **dict.fromkeys(("CapPrm", "prm", "cap_permitted"), "permitted"),
        **dict.fromkeys(("CapEff", "eff", "cap_effective"), "effective"),
        **dict.fromkeys(("CapInh", "inh", "cap_inheritable"), "inheritable"),
        **dict.fromkeys(("CapBnd", "bnd", "bset"), "bounding"),
        **dict.fromkeys(("CapAmb", "amb"), "ambient"),
        **dict.fromkeys(("NoNewPrivs", "nnp", "nonewprivs"), "no_new_privs"),
        **dict.fromkeys(("sec", "secbits"), "securebits"),
        **dict.fromkeys(("Groups", "supplementary", "supp_groups"), "groups"),
        **dict.fromkeys(("ppid", "PPid"), "parent"),
        **dict.fromkeys(("name", "comm", "command", "exe"), "a remark behind #; a process has no name"),
        **dict.fromkeys(("ns", "namespace", "userns", "user_ns"), "space, the name of a [[space]]"),
        "filter": "the table [filter], for all processes together",
    },
    "file": {
        **dict.fromkeys(("owner", "user"), "uid"), "group": "gid",
        **dict.fromkeys(("perm", "perms", "permissions"), "mode"),
        **dict.fromkeys(("xattr", "capability", "capabilities", "security.capability"), "caps"),
        **dict.fromkeys(("name", "file"), "path"),
        **dict.fromkeys(("setuid", "suid"), 'mode = "4755"'), **dict.fromkeys(("setgid", "sgid"), 'mode = "2755"'),
        "shebang": "interpreter",
    },
    "space": {**dict.fromkeys(("uid", "user"), "owner"), "uidmap": "uid_map", "gidmap": "gid_map"},
    "mount": {"path": "name", "point": "name", "options": "nosuid and noexec", "uidmap": "uid_map",
              "gidmap": "gid_map"},
    "filter": {**dict.fromkeys(("calls", "deny", "excluded", "syscalls"), "exclude"),
               "allow": "exclude, which names the calls that are not allowed"},
    "whole": {"processes": "[[process]]", "files": "[[file]]", "spaces": "[[space]]", "mounts": "[[mount]]",
              "filters": "[filter]", "userns": "[[space]]", "version": "a remark behind #"},
}
