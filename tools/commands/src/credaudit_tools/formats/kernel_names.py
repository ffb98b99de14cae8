"""Names that worlds, logs, reports and /proc share: capabilities (capabilities(7)), the fields of a credential,
errors."""
import re

CAPABILITIES = (
    "CHOWN DAC_OVERRIDE DAC_READ_SEARCH FOWNER FSETID KILL SETGID SETUID SETPCAP LINUX_IMMUTABLE NET_BIND_SERVICE"
    " NET_BROADCAST NET_ADMIN NET_RAW IPC_LOCK IPC_OWNER SYS_MODULE SYS_RAWIO SYS_CHROOT SYS_PTRACE SYS_PACCT SYS_ADMIN"
    " SYS_BOOT SYS_NICE SYS_RESOURCE SYS_TIME SYS_TTY_CONFIG MKNOD LEASE AUDIT_WRITE AUDIT_CONTROL SETFCAP MAC_OVERRIDE"
    " MAC_ADMIN SYSLOG WAKE_ALARM BLOCK_SUSPEND AUDIT_READ PERFMON BPF CHECKPOINT_RESTORE").split()
ALL = (1 << len(CAPABILITIES)) - 1
NUMBERS = {"CAP_" + name: number for number, name in enumerate(CAPABILITIES)}
SECUREBITS = {"NOROOT": 0x01, "NO_SETUID_FIXUP": 0x04, "KEEP_CAPS": 0x10, "NO_CAP_AMBIENT_RAISE": 0x40}
BIRTHS = ("fork", "vfork", "clone", "clone3")
MAP_FILES = ("uid_map", "gid_map", "setgroups")


def securebits_value(text: str) -> int | None:
    """The number of securebits as strace writes them: names SECBIT_.. and numbers between bars; None for other
    texts."""
    bits = 0
    for word in text.split("|"):
        name = word.removeprefix("SECBIT_")
        if name.removesuffix("_LOCKED") in SECUREBITS and name != word:
            bits |= SECUREBITS[name.removesuffix("_LOCKED")] << name.endswith("_LOCKED")
        elif re.fullmatch("0|0x[0-9a-f]+", word):
            bits |= int(word, 0)
        else:
            return None
    return bits


def capability_text(text: str) -> int | None:
    """The set of a world's capability text: `all`, `none`, 16 hexadecimal digits, or names between commas."""
    if text in ("all", "none"):
        return ALL if text == "all" else 0
    if len(text) == 16 and all(digit in "0123456789abcdefABCDEF" for digit in text):
        return int(text, 16) & ALL
    bits = 0
    for name in text.split(","):
        if name not in NUMBERS:
            return None
        bits |= 1 << NUMBERS[name]
    return bits


def capability_names(bits: int) -> str:
    """A set for the eye: names between commas, `all`, `none`."""
    if bits in (0, ALL):
        return "none" if bits == 0 else "all"
    return ",".join(name for name, number in NUMBERS.items() if bits >> number & 1)
