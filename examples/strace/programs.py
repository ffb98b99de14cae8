"""The programs that record.py records: what each is run with, and what lives when it has dropped its privilege."""
import os
import subprocess
from collections.abc import Callable
from dataclasses import dataclass

HERE = os.path.dirname(os.path.abspath(__file__))
# Made in copies of /etc and /var: lina (2001), who is in the group crew (2100), and mila (2002).
PASSWORD = "mila's word"
USERS = (
    ("groupadd", "--gid", "2100", "crew"),
    ("useradd", "--no-create-home", "--no-log-init", "--uid", "2001", "--shell", "/bin/sh", "--groups", "crew", "lina"),
    ("useradd", "--no-create-home", "--no-log-init", "--uid", "2002", "--shell", "/bin/sh", "mila"),
)
SLEEP = "exec sleep 600"


def nothing(_: str) -> None:
    """What a program needs that needs nothing."""


@dataclass
class Program:
    """A program to record: what its world says of it, and what is done before it runs and while it does."""
    name: str
    says: str
    words: list[str]                # PLACE in them is a folder of the program's own
    lives: dict[str, int]           # how many threads of which name live at the end
    user: str | None = None         # who runs it; root where nobody is named
    input: bytes = b""
    before: Callable[[str], None] = nothing         # with the folder
    client: Callable[[str], subprocess.Popen[bytes] | None] = nothing

    def as_user(self) -> list[str]:
        """The option of credaudit-trace for it."""
        return ["-u", self.user] if self.user else []


def put(place: str, name: str, text: str, mode: int = 0o644) -> str:
    """Writes a file into a folder, and gives its path."""
    path = os.path.join(place, name)
    with open(path, "w") as file:
        file.write(text)
    os.chmod(path, mode)
    return path


def mila_has_a_password(_: str) -> None:
    """What su asks for."""
    subprocess.run(["chpasswd"], input=f"mila:{PASSWORD}\n", text=True, check=True)


def lina_may_be_mila(_: str) -> None:
    """What sudo asks for."""
    put("/etc/sudoers.d", "examples", "Defaults !use_pty\nlina ALL = (mila) NOPASSWD: ALL\n", 0o440)


def lina_has_a_folder(place: str) -> None:
    """Where a program that lina runs may write."""
    os.mkdir(os.path.join(place, "lina"))
    os.chown(os.path.join(place, "lina"), 2001, 2001)


def bus(_: str) -> None:
    """The folder of the bus."""
    os.makedirs("/run/dbus", exist_ok=True)


def nginx(place: str) -> None:
    """The words of nginx.conf."""
    put(place, "nginx.conf", f"""user www-data;
worker_processes 2;
daemon off;
pid {place}/pid;
error_log /dev/null;
events {{ }}
http {{ access_log off; server {{ listen 127.0.0.1:80; }} }}
""")


def chrony(place: str) -> None:
    """The words of chrony.conf."""
    put(place, "chrony.conf", "port 0\ncmdport 0\n")


def keys(place: str) -> None:
    """The keys of sshd and of a user, and the words of sshd.conf."""
    os.makedirs("/run/sshd", exist_ok=True)
    for name in ("host", "user"):
        subprocess.run(["ssh-keygen", "-q", "-t", "ed25519", "-N", "", "-f", os.path.join(place, name)], check=True)
    put(place, "sshd.conf", f"""HostKey {place}/host
AuthorizedKeysFile {place}/user.pub
StrictModes no
UsePAM yes
PidFile none
ListenAddress 127.0.0.1:22
PasswordAuthentication no
KbdInteractiveAuthentication no
""")


def log_in(place: str) -> subprocess.Popen[bytes]:
    """A login by that key, once sshd listens."""
    words = ["ssh", "-i", f"{place}/user", "-o", "StrictHostKeyChecking=no", "-o", "UserKnownHostsFile=/dev/null", "-o",
             "ConnectionAttempts=10", "lina@127.0.0.1", SLEEP]
    return subprocess.Popen(["sh", "-c", 'sleep 2; exec "$@"', "sh", *words], stdin=subprocess.DEVNULL,
                            stdout=subprocess.DEVNULL, stderr=subprocess.DEVNULL)


def crontab(_: str) -> None:
    """A job of lina's, each minute."""
    put("/etc/cron.d", "examples", f"* * * * * lina {SLEEP}\n")


def daemon(name: str, says: str, user: str | None = None, capabilities: str | None = None,
           threads: int = 2) -> Program:
    """One of the small daemons, NAME/NAME.c: its file below /run, with these capabilities where there are some."""
    path = f"/run/{name}"

    def build(_: str) -> None:
        subprocess.run(["cc", "-O1", "-pthread", "-o", path, os.path.join(HERE, name, name + ".c")], check=True)
        if capabilities:
            subprocess.run(["setcap", capabilities, path], check=True)

    return Program(name, says, [path], {name: threads}, user=user, before=build)


PROGRAMS = (
    Program("setpriv", "setpriv (util-linux): ids, groups, all capabilities and the way back are given up",
            ["setpriv", "--reuid", "lina", "--regid", "lina", "--init-groups", "--inh-caps=-all", "--bounding-set=-all",
             "--no-new-privs", "sleep", "600"], {"sleep": 1}),
    Program("setpriv_ambient", "setpriv (util-linux): one capability is kept in the ambient set",
            ["setpriv", "--reuid", "lina", "--regid", "lina", "--clear-groups", "--inh-caps=-all,+net_bind_service",
             "--ambient-caps=-all,+net_bind_service", "--bounding-set=-all,+net_bind_service", "sleep", "600"],
            {"sleep": 1}),
    Program("capsh", "capsh (libcap2-bin): a user with one capability, securebits, and an execve of a shell",
            ["capsh", "--drop=cap_sys_admin,cap_sys_ptrace", "--keep=1", "--user=lina", "--inh=cap_net_raw",
             "--addamb=cap_net_raw", "--no-new-privs", "--", "-c", SLEEP], {"sleep": 1}),
    Program("su_from_root", "su (util-linux) run by root, which needs no password",
            ["su", "lina", "-c", SLEEP], {"su": 1, "sleep": 1}),
    Program("su_set_user_id", "su (util-linux) run by a user, through its set-user-ID bit and with a password",
            ["su", "mila", "-c", SLEEP], {"su": 1, "sleep": 1}, user="lina", input=f"{PASSWORD}\n".encode(),
            before=mila_has_a_password),
    Program("runuser", "runuser (util-linux): another user without a shell between",
            ["runuser", "-u", "lina", "--", "sleep", "600"], {"runuser": 1, "sleep": 1}),
    Program("sudo", "sudo run by a user to become another one, through its set-user-ID bit",
            ["sudo", "-n", "-u", "mila", "sleep", "600"], {"sudo": 1, "sleep": 1}, user="lina",
            before=lina_may_be_mila),
    Program("newgrp", "newgrp (login) run by a user to take another group, through its set-user-ID bit",
            ["newgrp", "crew"], {"newgrp": 1, "sleep": 1}, user="lina", input=f"{SLEEP}\n".encode()),
    Program("start_stop_daemon", "start-stop-daemon (dpkg): a daemon in the background as another user and group",
            ["start-stop-daemon", "--start", "--pidfile", "PLACE/pid", "--make-pidfile", "--chuid", "lina:crew",
             "--background", "--startas", "/usr/bin/sleep", "--", "600"], {"sleep": 1}),
    Program("nginx", "nginx-light: a master that stays root, and two workers that drop",
            ["nginx", "-c", "PLACE/nginx.conf"], {"nginx": 3}, before=nginx),
    Program("dnsmasq", "dnsmasq-base: a daemon that keeps one capability, to bind ports later",
            ["dnsmasq", "--keep-in-foreground", "--conf-file=/dev/null", "--listen-address=127.0.0.1",
             "--bind-dynamic", "--user=dnsmasq", "--pid-file="], {"dnsmasq": 1}),
    Program("chronyd", "chrony: a daemon that keeps capabilities, and has a filter of system calls",
            ["chronyd", "-d", "-x", "-F", "1", "-u", "_chrony", "-f", "PLACE/chrony.conf"], {"chronyd": 2},
            before=chrony),
    Program("sshd", "openssh-server: a listener, the monitor of a login, and the session of a user",
            ["/usr/sbin/sshd", "-D", "-f", "PLACE/sshd.conf"], {"sshd": 3, "sleep": 1}, before=keys, client=log_in),
    Program("cron", "cron: a job of a user's",
            ["cron", "-f"], {"cron": 2, "sleep": 1}, before=crontab),
    Program("ping", "ping (iputils-ping) run by a user, through the capability of its file",
            ["ping", "-i", "10", "127.0.0.1"], {"ping": 1}, user="lina"),
    Program("memcached", "memcached: a server with threads, which has dropped before they are born",
            ["memcached", "-u", "memcache", "-l", "127.0.0.1"],
            {"memcached": 1, "mc-log": 1, "mc-worker": 4, "mc-assocmaint": 1, "mc-itemcrawler": 1, "mc-lrumaint": 1,
             "mc-slabmaint": 1}),
    Program("ssh_agent", "ssh-agent (openssh-client) run by a user, which gives up the group of its set-group-ID bit",
            ["ssh-agent", "-D", "-a", "PLACE/lina/agent"], {"ssh-agent": 1}, user="lina",
            before=lina_has_a_folder),
    Program("atd", "atd (at): a daemon that keeps root as its saved id, to come back to it for each job",
            ["atd", "-f"], {"atd": 1}),
    Program("dbus", "dbus-daemon: the system's bus",
            ["dbus-daemon", "--system", "--nofork", "--nopidfile"], {"dbus-daemon": 1}, before=bus),
    Program("tcpdump", "tcpdump: a socket is opened, then all but its user is given up",
            ["tcpdump", "-i", "lo", "-Z", "tcpdump", "-w", "/dev/null"], {"tcpdump": 1}),
    Program("unshare_user", "unshare -r (util-linux) run by a user: root in a user namespace of its own",
            ["unshare", "-r", "sleep", "600"], {"sleep": 1}, user="lina"),
    Program("unshare_and_drop", "a user's root in a user namespace, which then gives up its capabilities there",
            ["unshare", "-r", "setpriv", "--inh-caps=-all", "--bounding-set=-all", "--no-new-privs", "sleep", "600"],
            {"sleep": 1}, user="lina"),
    daemon("drops_rightly", "a daemon that drops rightly: groups, group ids, user ids, no_new_privs"),
    daemon("keeps_one", "a daemon that drops rightly and keeps one capability, by PR_SET_KEEPCAPS and capset"),
    daemon("saved_user_left", "a daemon that drops wrongly: its saved user id stays root's"),
    daemon("real_user_left", "a daemon that drops wrongly: its real user id stays root's, also after an execve"),
    daemon("groups_left", "a daemon that drops wrongly: it stays a member of root's group", user="root"),
    daemon("wrong_order", "a daemon that drops wrongly: user id first, so group ids and groups stay", user="root"),
    daemon("keepcaps_left", "a daemon that drops wrongly: by PR_SET_KEEPCAPS all its capabilities stay permitted"),
    daemon("one_thread", "a daemon of two threads that drops wrongly: the other thread stays root", threads=3),
    daemon("all_threads", "a daemon of two threads that drops rightly: each of them makes the calls", threads=3),
    daemon("file_powers", "a daemon that a user runs and that keeps CAP_SETUID, which its file gives it", user="lina",
           capabilities="cap_setuid,cap_net_bind_service=ep"),
)
