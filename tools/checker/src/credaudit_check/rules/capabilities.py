"""Sets of capabilities as numbers, bit k for capability k, and the texts that tell them (FORMATS.md)."""
import re

NAMES = """
    CHOWN DAC_OVERRIDE DAC_READ_SEARCH FOWNER FSETID KILL SETGID SETUID SETPCAP LINUX_IMMUTABLE NET_BIND_SERVICE
    NET_BROADCAST NET_ADMIN NET_RAW IPC_LOCK IPC_OWNER SYS_MODULE SYS_RAWIO SYS_CHROOT SYS_PTRACE SYS_PACCT SYS_ADMIN
    SYS_BOOT SYS_NICE SYS_RESOURCE SYS_TIME SYS_TTY_CONFIG MKNOD LEASE AUDIT_WRITE AUDIT_CONTROL SETFCAP MAC_OVERRIDE
    MAC_ADMIN SYSLOG WAKE_ALARM BLOCK_SUSPEND AUDIT_READ PERFMON BPF CHECKPOINT_RESTORE
""".split()
NUMBERS = {"CAP_" + name: number for number, name in enumerate(NAMES)}
LAST = 40
ALL = (1 << (LAST + 1)) - 1


def bit(name: str) -> int:
    """The set of one capability, told without CAP_ in front."""
    return 1 << NUMBERS["CAP_" + name]


DAC_OVERRIDE, SETGID, SETUID, SETPCAP = bit("DAC_OVERRIDE"), bit("SETGID"), bit("SETUID"), bit("SETPCAP")
SYS_ADMIN, SETFCAP = bit("SYS_ADMIN"), bit("SETFCAP")
FS_CAPS = (bit("CHOWN") | DAC_OVERRIDE | bit("DAC_READ_SEARCH") | bit("FOWNER") | bit("FSETID")
           | bit("LINUX_IMMUTABLE") | bit("MAC_OVERRIDE") | bit("MKNOD"))


def subset(inner: int, outer: int) -> bool:
    """Whether each capability of the one is in the other."""
    return inner & ~outer == 0


def caps_of(text: str) -> int | None:
    """The set that a capability text tells; None where it is none."""
    if text in ("all", "none"):
        return ALL if text == "all" else 0
    if re.fullmatch(r"[0-9a-fA-F]{16}", text):
        return int(text, 16) & ALL
    found = 0
    for name in text.split(","):
        if name not in NUMBERS:
            return None
        found |= 1 << NUMBERS[name]
    return found
