"""Keys of units that aren't read: misspelled ones, those in another section than theirs, and truth values that are none
(systemd.syntax(7), systemd.directives(7))."""
import difflib
from collections.abc import Iterator

from ..command_line.printable import quoted
from .unit_files import Unit
from .unit_text import boolean

SERVICE, OTHERS = "Service", ("Unit", "Install")
# The keys of [Service], as `systemd --dump-configuration-items` of systemd 252 has them.
KEYS = frozenset("""
AllowedCPUs AllowedMemoryNodes AmbientCapabilities AppArmorProfile BPFProgram BindPaths BindReadOnlyPaths
BlockIOAccounting BlockIODeviceWeight BlockIOReadBandwidth BlockIOWeight BlockIOWriteBandwidth BusName
CPUAccounting CPUAffinity CPUQuota CPUQuotaPeriodSec CPUSchedulingPolicy CPUSchedulingPriority
CPUSchedulingResetOnFork CPUShares CPUWeight CacheDirectory CacheDirectoryMode CapabilityBoundingSet
ConfigurationDirectory ConfigurationDirectoryMode CoredumpFilter DefaultMemoryLow DefaultMemoryMin Delegate
DeviceAllow DevicePolicy DisableControllers DynamicUser Environment EnvironmentFile ExecCondition ExecPaths
ExecReload ExecSearchPath ExecStart ExecStartPost ExecStartPre ExecStop ExecStopPost ExitType ExtensionDirectories
ExtensionImages FailureAction FileDescriptorStoreMax FinalKillSignal Group GuessMainPID IOAccounting
IODeviceLatencyTargetSec IODeviceWeight IOReadBandwidthMax IOReadIOPSMax IOSchedulingClass IOSchedulingPriority
IOWeight IOWriteBandwidthMax IOWriteIOPSMax IPAccounting IPAddressAllow IPAddressDeny IPCNamespacePath
IPEgressFilterPath IPIngressFilterPath IgnoreSIGPIPE InaccessibleDirectories InaccessiblePaths KeyringMode
KillMode KillSignal LimitAS LimitCORE LimitCPU LimitDATA LimitFSIZE LimitLOCKS LimitMEMLOCK LimitMSGQUEUE
LimitNICE LimitNOFILE LimitNPROC LimitRSS LimitRTPRIO LimitRTTIME LimitSIGPENDING LimitSTACK LoadCredential
LoadCredentialEncrypted LockPersonality LogExtraFields LogLevelMax LogNamespace LogRateLimitBurst
LogRateLimitIntervalSec LogsDirectory LogsDirectoryMode ManagedOOMMemoryPressure ManagedOOMMemoryPressureLimit
ManagedOOMPreference ManagedOOMSwap MemoryAccounting MemoryDenyWriteExecute MemoryHigh MemoryLimit MemoryLow
MemoryMax MemoryMin MemorySwapMax MountAPIVFS MountFlags MountImages NUMAMask NUMAPolicy NetworkNamespacePath Nice
NoExecPaths NoNewPrivileges NonBlocking NotifyAccess OOMPolicy OOMScoreAdjust PAMName PIDFile PassEnvironment
PermissionsStartOnly Personality PrivateDevices PrivateIPC PrivateMounts PrivateNetwork PrivateTmp PrivateUsers
ProcSubset ProtectClock ProtectControlGroups ProtectHome ProtectHostname ProtectKernelLogs ProtectKernelModules
ProtectKernelTunables ProtectProc ProtectSystem ReadOnlyDirectories ReadOnlyPaths ReadWriteDirectories
ReadWritePaths RebootArgument RemainAfterExit RemoveIPC Restart RestartForceExitStatus RestartKillSignal
RestartPreventExitStatus RestartSec RestrictAddressFamilies RestrictFileSystems RestrictNamespaces
RestrictNetworkInterfaces RestrictRealtime RestrictSUIDSGID RootDirectory RootDirectoryStartOnly RootHash
RootHashSignature RootImage RootImageOptions RootVerity RuntimeDirectory RuntimeDirectoryMode
RuntimeDirectoryPreserve RuntimeMaxSec RuntimeRandomizedExtraSec SELinuxContext SecureBits SendSIGHUP SendSIGKILL
SetCredential SetCredentialEncrypted Slice SmackProcessLabel SocketBindAllow SocketBindDeny Sockets StandardError
StandardInput StandardInputData StandardInputText StandardOutput StartLimitAction StartLimitBurst
StartLimitInterval StartupAllowedCPUs StartupAllowedMemoryNodes StartupBlockIOWeight StartupCPUShares
StartupCPUWeight StartupIOWeight StateDirectory StateDirectoryMode SuccessExitStatus SupplementaryGroups
SyslogFacility SyslogIdentifier SyslogLevel SyslogLevelPrefix SystemCallArchitectures SystemCallErrorNumber
SystemCallFilter SystemCallLog TTYColumns TTYPath TTYReset TTYRows TTYVHangup TTYVTDisallocate TasksAccounting
TasksMax TemporaryFileSystem TimeoutAbortSec TimeoutCleanSec TimeoutSec TimeoutStartFailureMode TimeoutStartSec
TimeoutStopFailureMode TimeoutStopSec TimerSlackNSec Type UMask USBFunctionDescriptors USBFunctionStrings
UnsetEnvironment User UtmpIdentifier UtmpMode WatchdogSec WatchdogSignal WorkingDirectory
""".split())
# Keys with a truth value that have to do with rights. DynamicUser= and PrivateUsers= are looked at where they are read.
TRUTHS = ("LockPersonality", "MemoryDenyWriteExecute", "NoNewPrivileges", "PermissionsStartOnly", "PrivateDevices",
          "ProtectClock", "ProtectHostname", "ProtectKernelLogs", "ProtectKernelModules", "ProtectKernelTunables",
          "RestrictRealtime", "RestrictSUIDSGID", "RootDirectoryStartOnly")


# Keys of [Service] that no other section has, and that say what processes may.
COUNTED = frozenset(["AmbientCapabilities", "CapabilityBoundingSet", "DynamicUser", "ExecPaths", "Group", "NoExecPaths",
                     "PrivateUsers", "RootDirectory", "SecureBits", "SupplementaryGroups", "SystemCallArchitectures",
                     "SystemCallFilter", "User", *TRUTHS])


def near(key: str) -> str:
    """What a key that isn't known may stand for, in words."""
    lower = {each.lower(): each for each in KEYS}
    found = difflib.get_close_matches(key.lower(), lower, 1, 0.8)
    return f": {lower[found[0]]}= may be meant" if found else ""


def odd_keys(unit: Unit) -> Iterator[str]:
    """The keys that systemd passes over, each once, with what may be meant."""
    told = set[tuple[str, str]]()
    for each in unit.given:
        place, where = (each.section, each.key), f"{quoted(each.file)} line {each.line}"
        if place in told or each.section.startswith("X-") or each.key.startswith("X-"):
            continue
        told.add(place)
        if each.section == SERVICE and each.key not in KEYS:
            yield f"{where}: {quoted(each.key)} is no key of [Service] that is known here, and is passed over" \
                + near(each.key)
        elif each.section not in (SERVICE, *OTHERS):
            yield f"{where}: {quoted(each.key)} stands in [{each.section}], which is no section of a service, and is" \
                  " passed over"
        elif each.section in OTHERS and each.key in KEYS and each.key in COUNTED:
            yield f"{where}: {quoted(each.key)} stands in [{each.section}], and is passed over: [Service] has it"


def odd_values(unit: Unit) -> Iterator[str]:
    """The truth values that are none, and that systemd passes over."""
    return (f"{each.key}=: {quoted(each.value)} is no truth value, and is passed over, as systemd does"
            for each in unit.given
            if each.section == SERVICE and each.key in TRUTHS and each.value and boolean(each.value) is None)
