"""Hand-made logs of strace at the edges of docs/STRACE.md, which draws seldom reach. For compare_strace_readers.py and
strangers.py; process 200 lives, and /bin/su is declared.
"""
FOLLOWED = '200 open("/proc/self/ns/user", 0) = 3\n'
OPENS = '200 openat(3, "/proc/self/ns/user", O_RDONLY) = {}\n'
BIG = "9" * 5000

# Each line of these is a log of its own.
ALONE = r"""
200 open("/proc/self/uid_map", O_WRONLY) = 4294967295
00000000000000000000000000000000000200 setuid(000000000000000000000000000000007) = 0
200 <... setuid resumed>(0) = 0
200 <...setuid resumed>(0) = 0
200 <...resumed>(0) = 0
200 <... resumed> resumed>x
200 setgroups(0, [ ]) = 0
200 setgroups(1, NULL) = 0
200 setgroups(0, []x) = 0
200 setgroups(0, [) = 0
200 setgroups(0, ]) = 0
200 clone3({flags=CLONE_NEWUSER, x={flags=0) = 201
200 clone3({flags=CLONE_NEWUSER) = 201
200 clone({x=[1}, flags=CLONE_NEWUSER) = 201
200 clone3({flags=0]flags=CLONE_NEWUSER}) = 201
200 clone3({a, flags=CLONE_NEWUSER], 1) = 201
200 clone3({x="}, flags=CLONE_NEWUSER", flags=CLONE_NEWUSER}) = 201
200 clone({, flags=CLONE_NEWUSER}) = 201
200 clone({}, flags=CLONE_NEWUSER) = 201
200 clone(flags=, flags=CLONE_NEWUSER) = 201
200 clone({{flags=CLONE_NEWUSER}}) = 201
200 clone({flags = CLONE_NEWUSER | CLONE_VM}) = 201
200 setuid(0) == 0
200 setuid(0) = 0 = 0
200 setuid(0) = 0) = 1
200 setuid (0)=0
200 setuid(") = 0
200 setuid(0)x = 0
200 setuid(0) "" = 0
200 setuid((0)) = 0
200 setuid(0)) = 0
200 setuid("\") = 0
200 setuid(0) = -1 EPERMX
200 setuid(0) = -1EPERM
200 setuid(0) = -1 EPERM(x)
200 setuid(0) = -1 E2BIG
200 setuid(0) = -1 ENOSYSX
200 setuid(0) = -1 ENOSYS
200 setuid(x) = ?
200 setuid( = ?
200 setuid(0) = 00
200 setuid(0) = 0 x
200 setuid(0) = 
200 setuid(0) = -1 
200 prctl(PR_CAP_AMBIENT_RAISE, PR_CAP_AMBIENT_RAISE, 1) = 0
200 prctl(PR_CAP_AMBIENT, PR_CAPBSET_DROP, 1) = 0
200 prctl(PR_CAP_AMBIENT, PR_SET_KEEPCAPS, 1) = 0
200 prctl(PR_CAP_AMBIENT, PR_CAP_AMBIENT_CLEAR_ALL, 0, 0, 0) = x
200 prctl(PR_CAP_AMBIENT, PR_CAP_AMBIENT_IS_SET, 0, 0, 0) = 1
200 prctl(PR_SET_KEEPCAPS) = 1
200 prctl(, 1) = x
200 prctl(PR_CAPBSET_DROP, 0x00000000000029) = 0
200 prctl(PR_CAPBSET_DROP, 0x1ffffffff) = 0
200 prctl(PR_CAPBSET_DROP, 0x15 /* a, b */, 0) = 0
200 prctl(PR_CAPBSET_DROP, 0x15 /* a, b[ */ , 0) = 0
200 prctl(PR_CAPBSET_DROP, 0x15 /* a(, b */ c, 0) = 0
200 prctl(PR_CAPBSET_DROP, 0x15 /* a, b * /, 0) = 0
200 prctl(PR_CAPBSET_DROP, 21 /* ",*/, " */) = 0
200 prctl(PR_CAP_AMBIENT, PR_CAP_AMBIENT_LOWER, 21 /*,*/) = 0
200 prctl(PR_CAP_AMBIENT) = 0x5
200 prctl( ) = -1 EFOO
200 execveat() = 0x5
200 prctl(PR_CAPBSET_DROP, 4294967295) = 0
200 prctl(PR_CAPBSET_DROP, CAP_KILL/**/) = 0
200 prctl(PR_CAPBSET_DROP, CAP_KILL /*/) = 0
200 prctl(PR_CAPBSET_DROP, CAP_KILL /* */ ) = 0
200 prctl(PR_CAPBSET_DROP, CAP_KILL /**/*/) = 0
200 prctl(PR_SET_SECUREBITS, SECBIT_KEEP_CAPS_LOCKED_LOCKED) = 0
200 prctl(PR_SET_SECUREBITS, SECBIT_) = 0
200 prctl(PR_SET_SECUREBITS, 0xFFFFFFFF) = 0
200 prctl(PR_SET_SECUREBITS, 0xFFFFFFFFF) = 0
200 prctl(PR_SET_SECUREBITS, ) = 0
200 capset({version=V, pid=000}, {effective=0, permitted=0, inheritable=0}) = 0
200 capset({version=V, pid=0}, {effective=1<< CAP_KILL, permitted=0, inheritable=0}) = 0
200 capset({version = {a, b}, pid = 200}, {effective = 0| 0, permitted= 1<<CAP_CHOWN, inheritable=0 }) = 0
200 capset({pid=0, version=V}, {effective=0, permitted=0, inheritable=0}) = 0
200 capset({version=V, pid=0}, {effective=0, permitted=0, inheritable=0, }) = 0
200 capset({}, {}) = 0
200 capset({,}, {}) = 0
200 execve("/bin/su\0", []) = 0
200 execve("", []) = 0
200 execve("/bin/su") = 0
200 execve("/bin/su"...) = 0
200 execve("\57bin\57su") = 0
200 execve("\057bin\0571") = 0
200 execveat( AT_FDCWD , "/bin/su") = 0
200 execveat(AT_FDCWD) = 0
200 execveat(3) = x
200 execveat(3) = 7
200 creat("uid_map") = 3
200 open("uid_map", O_RDONLY) = 3
200 open("a/ns/user", O_RDONLY) = 3
200 open("xns/user", O_RDONLY) = 3
200 open("", O_RDONLY) = 3
200 open("ns/user", O_RDONLY) = -1 EPERM
200 open("x/ns/user"..., O_RDONLY) = 3
200 open("/proc/201/ns/user", 0) = 3
200 open("/proc/4194305/ns/user", 0) = 3
200 open("/proc/self/task/self/ns/user", 0) = 3
200 open("/proc/thread-self/task/200/ns/user", 0) = 3
200 open("/proc/self/task/200/ns/user/", 0) = 3
200 open("/proc/0/task/200/ns/user", 0) = 3
200 open("/proc/self/task/201/ns/user", 0) = 3
200 +++ superseded by execve in pid 3 +++
200 +++ superseded+++
200 +++superseded +++
200 +++ supersededx +++
200 +++ killed by SIGSEGV (core dumped) +++
200 +++ exited with +++
200 +++ exited with 99999999999999999999 +++
200 +++ exited  with    3+++
200 +++
200 +++++
200 ++++++
200 ++
200 --
200 ---x
200 --- SIG <unfinished ...>
200 +++ <unfinished ...>
200 +++ exited with 0 +++ x
200 <... x resumed> <unfinished ...>
200
 200 x
x
0 x
4194304 x
4194305 x
-1 x
200x setuid(0) = 0
300 open("/proc/self/uid_map", O_WRONLY) = 3
"""

MORE_GROUPS: tuple[tuple[int, list[str]], ...] = ((1024, []), (1025, ["1"]), (1025, ["x"]))     # after 1024 good ones
LOGS = [
    # numbers past the greatest one count as one
    '200 open("/proc/self/uid_map", O_WRONLY) = 99999999999\n200 open("/x", 0) = 88888888888\n'
    "200 clone(flags=CLONE_FILES) = 201\n",
    f"200 setuid(1) = {BIG}\n", f"200 setfsuid(1) = {BIG}\n", f"200 fork() = {BIG}\n", f"200 setuid({BIG}) = 0\n",
    f"200 setuid({'0' * 5000}) = 0\n", f"200 prctl(PR_CAPBSET_DROP, 0x{'0' * 5000}1) = 0\n",
    '200 open("/proc/self/uid_map", O_WRONLY) = 4294967295\n200 write(4294967295, "0 0 1", 5) = 5\n',
    # descriptors
    '200 write(3, "", 0) = 0\n200 open("/proc/self/uid_map", O_RDWR) = 3\n200 write(3, "", 0) = 0\n'
    '200 write(3, "\\n", 1) = 1\n',
    '200 creat("/proc/self/uid_map") = 3\n200 write(3, "1 2 3\\r\\n4\\t5 6 ", 99) = 14\n',
    "200 creat() = 3\n200 open() = 3\n200 openat(1) = 3\n200 close() = 0\n200 dup() = 0\n200 fcntl(3) = 0\n"
    "200 write() = 0\n",
    '200 open("/proc/777/task/200/ns/user", 0) = 3\n200 setns(3, CLONE_NEWUSER) = 0\n',
    FOLLOWED + "200 fork() = 201\n201 setns(3, 0) = 0\n200 clone(flags=CLONE_FILES) = 202\n",
    "".join(map(OPENS.format, range(65536))), "".join(map(OPENS.format, range(65537))),
    "".join(map(OPENS.format, range(32768))) + "200 fork() = 201\n200 close(0) = 0\n201 fork() = 202\n",
    # calls that aren't finished
    "200 <unfinished ...>\n200 <...  resumed>setuid(0) = 0\n",
    "200 <unfinished ...>\n200 <... x resumed>setuid(0) = 0\n",
    "200 setu<unfinished ...>\n200 <... setu resumed>id(0) = 0\n",
    "200 setuid3<unfinished ...>\n200 <... setuid3 resumed>2(0) = 0\n",
    "200 read<unfinished ...>\n200 <... read resumed>32(0) = 0\n", "200 <unfinished ...>\n200 <unfinished ...>\n",
    "200 x<unfinished ...>\n200 y<unfinished ...>\n",
    "200 setuid(0 <unfinished ...>\n200 +++ exited with 0 +++\n200 <... setuid resumed>) = 0\n",
    "300 setuid(0 <unfinished ...>\n300 <... setuid resumed>) = 0\n",
    "300 read(0 <unfinished ...>\n300 <... read resumed>) = 0\n300 read( <unfinished ...>\n301 setuid(0) = x\n",
    # lines that are held
    '300 open("/proc/200/uid_map", O_WRONLY) = 3\n300 write(3, "0 0 1", 5) = 5\n',
    '300 close(3) = 0\n300 dup(3) = 4\n300 execveat(3, "x") = -1 EPERM\n300 setns(3, 0) = -1 EPERM\n'
    "300 unshare() = 0\n300 prctl() = x\n",
    "201 setuid(1) = 0\n201 +++ exited with 0 +++\n201 setuid(2) = 0\n200 fork() = 201\n200 fork() = 201\n",
    "201 fork() = 202\n202 fork() = 201\n201 setuid(4) = 0\n202 setuid(5) = 0\n200 fork() = 201\n",
    "201 fork() = 201\n201 setuid(1) = 0\n200 fork() = 201\n",
    "300 x\n" * 4096, "300 x\n" * 4097, "300 x\n" * 4096 + "200 fork() = 300\n" + "301 x\n" * 4096,
    # births of who is alive
    "200 fork() = 200\n", "200 clone(flags=CLONE_NEWUSER) = 200\n" + FOLLOWED + "200 setns(3, 0) = 0\n",
    FOLLOWED + "200 fork() = 200\n200 setns(3, 0) = 0\n",
    '200 fork() = 201\n201 open("/proc/self/ns/user", 0) = 3\n200 open("/proc/self/uid_map", O_WRONLY) = 3\n'
    '200 open("/proc/self/gid_map", O_WRONLY) = 4\n200 fork() = 201\n201 setns(3, 0) = 0\n201 write(4, "", 0) = 0\n',
    # long lines, blanks, and the limit of groups
    "200 " + "x" * 1048572 + "\n", "200 " + "x" * 1048573 + "\n", " " * 1048576 + "\n200 setuid(0) = 0",
    " " * 1048577 + "\n",
    "\n \n\t\r\n200\n200 \n 200 x\n", "200 setuid(0)\t=\t0\n", "200 setuid(0) = -1\tEPERM (x)\n",
    "200\tsetuid(0) = 0\n",
    "200\vsetuid(0) = 0\n", "\x00\n", "200 setuid(0) = 0", "200 +++ exited  with\t3+++\n",
    *(f"200 setgroups({n}, [{', '.join(['1'] * 1024 + more)}]) = 0\n" for n, more in MORE_GROUPS),
    *(line + "\n" for line in ALONE.strip("\n").split("\n")),
]
