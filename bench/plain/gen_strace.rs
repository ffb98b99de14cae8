//! Logs of strace as recordings are: mostly calls that change no credential, of 8 or some 1,000 live processes; births of
//! which the child's lines come first; and, where it is asked for, descriptors of map files that are followed.
use crate::cred::Res;
use crate::gen::Draws;
use crate::lines::{Call, Event, Lists, PLAIN};
use crate::machine::Machine;
use crate::map::Extent;
use crate::space::Side;
use crate::world::World;
use std::io::{self, Write};

/// How many processes live, lines are held and descriptors followed at a time, at the most.
#[derive(Clone, Copy)]
pub struct Sizes {
    pub live: usize,
    pub held: usize,
    pub descriptors: usize,
}

pub fn sizes(kind: &str) -> Option<Sizes> {
    let (live, held, descriptors) = match kind {
        "strace" => (1000, 4096, 0),
        "strace-few" => (8, 64, 0),
        "strace-held" => (1000, 4096, 65_536),
        "strace-held-quarter" => (1000, 1024, 16_384),
        _ => return None,
    };
    Some(Sizes { live, held, descriptors })
}

const ROOT: usize = 0; // pid 100, which gives birth to the first ones
const KEEPER: usize = 1; // pid 101, which has a quarter of all descriptors, and gives birth to none
const FIRST_CHILD: u32 = 1000;
const FIRST_FOLLOWED: u32 = 100; // other descriptors have smaller numbers
const MAKERS: u32 = 60; // of user namespaces

#[derive(Clone, Copy, PartialEq)]
enum Of {
    UidMap,
    GidMap,
    UserSpace,
}

#[derive(Clone, Copy)]
struct Followed {
    fd: u32,
    of: Of,
    until_exec: bool,
}

struct Process {
    pid: u32,
    waits: Option<&'static str>, // how its call that isn't finished goes on
    next: u32,
    followed: Vec<Followed>,
}

struct Log<'a, O: Write> {
    out: O,
    w: &'a World,
    m: Machine,
    d: Draws,
    sizes: Sizes,
    live: Vec<Process>,
    next_pid: u32,
    followed: usize,
    left: u64,
}

const READ: &str = r#""\177ELF\2\1\1\3\0\0\0\0\0\0\0\0\3\0>\0\1\0\0\0"..."#;
const MAPPED: &str = "PROT_READ|PROT_WRITE, MAP_PRIVATE|MAP_ANONYMOUS";
const HANDLER: &str = "{sa_handler=SIG_DFL, sa_mask=[], sa_flags=0}";
const WAIT: &str = "FUTEX_WAIT_BITSET_PRIVATE|FUTEX_CLOCK_REALTIME";
const CHILD_ENDED: &str = "si_signo=SIGCHLD, si_code=CLD_EXITED, si_pid=1234, si_uid=0, si_status=0";
const LIBRARIES: [&str; 4] = ["libc.so.6", "libselinux.so.1", "libpcre2-8.so.0", "libcrypto.so.3"];

fn remark(error: &str) -> &'static str {
    match error {
        "EPERM" => "Operation not permitted",
        "EACCES" => "Permission denied",
        _ => "Invalid argument",
    }
}

impl<O: Write> Log<'_, O> {
    fn line(&mut self, at: usize, text: &str) -> io::Result<()> {
        self.left = self.left.saturating_sub(1);
        writeln!(self.out, "{} {text}", self.live[at].pid)
    }

    /// A call that is an event, with the result that the machine gives; the machine takes the step.
    fn does(&mut self, at: usize, call: Call, lists: &Lists, text: &str, answer: u32) -> io::Result<Res> {
        let pid = self.live[at].pid;
        let res = self.m.answer(self.w, pid, call, lists, 0).expect("a caller that lives");
        if let Err(stop) = self.m.step(self.w, &Event { pid, call, res }, lists) {
            panic!("{}", stop.1);
        }
        match res {
            Res::Err(e) => self.line(at, &format!("{text} = -1 {e} ({})", remark(e)))?,
            _ => self.line(at, &format!("{text} = {answer}"))?,
        }
        Ok(res)
    }

    fn plainly(&mut self, at: usize, call: Call, text: &str) -> io::Result<Res> {
        self.does(at, call, &Lists::default(), text, 0)
    }

    // ---- births and exits --------------------------------------------------------------------

    /// A child comes to life; its birth isn't told yet.
    fn child(&mut self, parent: usize) -> usize {
        let (pid, child) = (self.live[parent].pid, self.next_pid);
        self.next_pid += 1;
        let event = Event { pid, call: Call::Fork, res: Res::Child(child) };
        if let Err(stop) = self.m.step(self.w, &event, &Lists::default()) {
            panic!("{}", stop.1);
        }
        let (followed, next) = (self.live[parent].followed.clone(), self.live[parent].next);
        self.followed += followed.len();
        self.live.push(Process { pid: child, waits: None, next, followed });
        self.live.len() - 1
    }

    fn clone_text(child: u32) -> String {
        let flags = "CLONE_CHILD_CLEARTID|CLONE_CHILD_SETTID|SIGCHLD";
        format!("clone(child_stack=NULL, flags={flags}, child_tidptr=0x7f{child:08x}10)")
    }

    fn may_bear(&self, at: usize) -> bool {
        let p = &self.live[at];
        at != KEEPER && p.waits.is_none() && p.followed.len() + self.followed <= self.sizes.descriptors
    }

    fn birth(&mut self, parent: usize) -> io::Result<usize> {
        let child = self.child(parent);
        let pid = self.live[child].pid;
        self.line(parent, &format!("{} = {pid}", Self::clone_text(pid)))?;
        Ok(child)
    }

    fn exit(&mut self, at: usize) -> io::Result<()> {
        self.line(at, "exit_group(0)                     = ?")?;
        self.line(at, "+++ exited with 0 +++")?;
        let p = self.live.swap_remove(at);
        self.followed -= p.followed.len();
        let event = Event { pid: p.pid, call: Call::Exit, res: Res::Done };
        self.m.step(self.w, &event, &Lists::default()).map_err(|stop| io::Error::new(io::ErrorKind::Other, stop.1))
    }

    /// Births of which the children's lines come first, so many lines; some of the children give birth themselves.
    fn births_with_held(&mut self, parents: usize, lines: usize) -> io::Result<()> {
        let (mut begun, mut children) = (Vec::new(), Vec::new());
        for _ in 0..parents {
            let at = self.d.below(self.live.len() as u64) as usize;
            if !self.may_bear(at) || children.contains(&at) {
                continue;
            }
            let child = self.child(at);
            let text = Self::clone_text(self.live[child].pid);
            self.line(at, &format!("{} <unfinished ...>", text.trim_end_matches(')')))?;
            self.live[at].waits = Some("");
            begun.push((at, child));
            children.push(child);
        }
        for k in 0..if children.is_empty() { 0 } else { lines } {
            let at = children[self.d.below(children.len() as u64) as usize];
            if k % 64 == 63 && self.may_bear(at) {
                let child = self.birth(at)?;
                children.push(child);
            } else {
                self.any_line(at)?;
            }
        }
        for (at, child) in begun {
            self.live[at].waits = None;
            let pid = self.live[child].pid;
            self.line(at, &format!("<... clone resumed>, child_tidptr=0x7f{pid:08x}10) = {pid}"))?;
        }
        Ok(())
    }

    // ---- calls --------------------------------------------------------------------

    fn event(&mut self, at: usize) -> io::Result<()> {
        let k = self.d.number(1000, 60_000);
        let none = Lists::default();
        match self.d.below(12) {
            0..=2 => {
                let (call, text) = (Call::SetResUid([u32::MAX, 0, u32::MAX]), "setresuid(-1, 0, -1)");
                self.plainly(at, call, text)?;
            }
            3 if self.d.below(4) == 0 => {
                self.plainly(at, Call::SetResUid([k; 3]), &format!("setresuid({k}, {k}, {k})"))?;
            }
            3 | 4 => {
                self.plainly(at, Call::SetUid(k), &format!("setuid({k})"))?;
            }
            5 => {
                self.plainly(at, Call::SetGid(k), &format!("setgid({k})"))?;
            }
            6 => {
                let lists = Lists { groups: vec![4, 24, k], ..none };
                self.does(at, Call::SetGroups, &lists, &format!("setgroups(3, [4, 24, {k}])"), 0)?;
            }
            7 => {
                self.plainly(at, Call::NoNewPrivs(1), "prctl(PR_SET_NO_NEW_PRIVS, 1, 0, 0, 0)")?;
            }
            8 => {
                self.plainly(at, Call::BsetDrop(13), "prctl(PR_CAPBSET_DROP, CAP_NET_RAW)")?;
            }
            _ => self.execve(at)?,
        }
        Ok(())
    }

    fn execve(&mut self, at: usize) -> io::Result<()> {
        let rows = self.w.files.len() as u64;
        let row = self.d.below(2 * rows) as u32;
        let (row, name) = match self.w.paths.get(row) {
            Some(path) => (row, String::from_utf8_lossy(path).into_owned()),
            None => (PLAIN, format!("/usr/bin/tool{row}")),
        };
        let place = row.wrapping_mul(77);
        let text = format!("execve(\"{name}\", [\"{name}\", \"-c\", \"true\"], 0x7ffd{place:08x} /* 23 vars */)");
        if self.plainly(at, Call::Exec(row), &text)? == Res::Done {
            let before = self.live[at].followed.len();
            self.live[at].followed.retain(|f| !f.until_exec);
            self.followed -= before - self.live[at].followed.len();
        }
        Ok(())
    }

    /// One line of a process, whatever it does.
    fn any_line(&mut self, at: usize) -> io::Result<()> {
        if let Some(end) = self.live[at].waits {
            if end.is_empty() {
                return Ok(()); // it is giving birth
            }
            self.live[at].waits = None;
            return self.line(at, end);
        }
        if self.sizes.descriptors > 0 && self.d.below(4) == 0 {
            return self.on_followed(at);
        }
        let (fd, k) = (self.d.number(3, 20), self.d.number(1, 60_000));
        let text = match self.d.below(1000) {
            0..=249 => format!("read({fd}, {READ}, 832) = 832"),
            250..=379 => format!("write(1, \"line {k} of the output\\n\", {}) = {}", k % 90, k % 90),
            380..=489 => {
                let place = u64::from(k) << 12;
                format!("mmap(NULL, {}, {MAPPED}, -1, 0) = 0x7f2a{place:08x}", 8 * k)
            }
            490..=569 => {
                let library = LIBRARIES[k as usize % 4];
                let result = if k % 5 == 0 { "-1 ENOENT (No such file or directory)".into() } else { fd.to_string() };
                format!("openat(AT_FDCWD, \"/lib/x86_64-linux-gnu/{library}\", O_RDONLY|O_CLOEXEC) = {result}")
            }
            570..=659 => format!("close({fd})                                = 0"),
            660..=719 => format!("newfstatat({fd}, \"\", {{st_mode=S_IFREG|0755, st_size={k}, ...}}, AT_EMPTY_PATH) = 0"),
            720..=779 => format!("mprotect(0x7f2a{k:08x}, {}, PROT_READ) = 0", k % 16 * 4096),
            780..=829 => format!("rt_sigaction(SIGINT, {HANDLER}, {{sa_handler=SIG_DFL}}, 8) = 0"),
            830..=889 => {
                self.live[at].waits = Some("<... futex resumed>) = 0");
                format!("futex(0x7f2a{k:08x}, {WAIT}, 0, NULL, FUTEX_BITSET_MATCH_ANY <unfinished ...>")
            }
            890..=919 => {
                self.live[at].waits = Some("<... wait4 resumed>[{WIFEXITED(s) && WEXITSTATUS(s) == 0}], 0, NULL) = 1234");
                "wait4(-1,  <unfinished ...>".into()
            }
            920..=949 => format!("--- SIGCHLD {{{CHILD_ENDED}}} ---"),
            950..=964 => format!("fcntl({fd}, F_GETFL) = 0x8000 (flags O_RDONLY|O_LARGEFILE)"),
            965..=974 => format!("dup2({fd}, 1) = 1"),
            975..=979 => format!("pwrite64({fd}, \"row {k}\", 9, {k}) = 9"),
            _ => return self.event(at),
        };
        self.line(at, &text)
    }

    // ---- descriptors that are followed --------------------------------------------------------------------

    /// How many a process has, at the most.
    fn share(&self, at: usize) -> usize {
        let keeper = self.sizes.descriptors / 4;
        if at == KEEPER { keeper } else { (self.sizes.descriptors - keeper) / (self.sizes.live + 100) }
    }

    fn open(&mut self, at: usize) -> io::Result<()> {
        let (pid, fd, until_exec) = (self.live[at].pid, self.live[at].next, self.d.below(8) == 0);
        let (of, name, flags) = match self.d.below(4) {
            0 => (Of::UserSpace, "self/ns/user".into(), "O_RDONLY"),
            1 => (Of::GidMap, format!("{pid}/gid_map"), "O_RDWR"),
            2 => (Of::UidMap, format!("self/task/{pid}/uid_map"), "O_WRONLY"),
            _ => (Of::UidMap, "self/uid_map".into(), "O_WRONLY"),
        };
        self.live[at].next += 1;
        self.live[at].followed.push(Followed { fd, of, until_exec });
        self.followed += 1;
        let flags = if until_exec { format!("{flags}|O_CLOEXEC") } else { flags.into() };
        self.line(at, &format!("openat(AT_FDCWD, \"/proc/{name}\", {flags}) = {fd}"))
    }

    fn on_followed(&mut self, at: usize) -> io::Result<()> {
        let count = self.live[at].followed.len();
        if count < self.share(at) && self.followed < self.sizes.descriptors {
            return self.open(at);
        }
        if count == 0 {
            return Ok(());
        }
        let place = self.d.below(count as u64) as usize;
        let Followed { fd, of, .. } = self.live[at].followed[place];
        if self.d.below(3) > 0 {
            self.live[at].followed.swap_remove(place);
            self.followed -= 1;
            return self.line(at, &format!("close({fd}) = 0"));
        }
        let lists = Lists { map: vec![Extent { inside: 0, outside: 1000, length: 1 }], ..Lists::default() };
        let text = format!("write({fd}, \"0 1000 1\\n\", 9)");
        match of {
            Of::UserSpace => self.plainly(at, Call::SetNs(0), &format!("setns({fd}, CLONE_NEWUSER)")),
            Of::UidMap => self.does(at, Call::WriteMap(Side::Users, 0), &lists, &text, 9),
            Of::GidMap => self.does(at, Call::WriteMap(Side::Groups, 0), &lists, &text, 9),
        }
        .map(|_| ())
    }

    /// Children of root that make a user namespace, of which root writes the uid_map and the setgroups word; they exit.
    fn makers(&mut self) -> io::Result<()> {
        for _ in 0..MAKERS {
            let at = self.birth(ROOT)?;
            let (pid, space) = (self.live[at].pid, self.m.spaces.len() as u32);
            self.plainly(at, Call::Unshare, "unshare(CLONE_NEWUSER)")?;
            let lists = Lists { map: vec![Extent { inside: 0, outside: 100_000, length: 1000 }], ..Lists::default() };
            let write = Call::WriteMap(Side::Users, space);
            self.line(ROOT, &format!("openat(AT_FDCWD, \"/proc/{pid}/uid_map\", O_WRONLY|O_CLOEXEC) = 50"))?;
            self.does(ROOT, write, &lists, "write(50, \"         0     100000       1000\\n\", 33)", 33)?;
            self.line(ROOT, &format!("openat(AT_FDCWD, \"/proc/{pid}/setgroups\", O_RDWR) = 51"))?;
            self.does(ROOT, Call::WriteSetgroups(space, true), &Lists::default(), "write(51, \"deny\", 4)", 4)?;
            self.line(ROOT, "close(51) = 0")?;
            self.line(ROOT, "close(50) = 0")?;
            self.exit(at)?;
        }
        Ok(())
    }

    // ---- the log --------------------------------------------------------------------

    fn begin(&mut self) -> io::Result<()> {
        if self.sizes.descriptors > 0 {
            self.makers()?;
        }
        while self.live.len() < self.sizes.live {
            self.birth(ROOT)?;
        }
        for at in 1..self.live.len() {
            for _ in 0..self.share(at) {
                self.open(at)?;
            }
        }
        Ok(())
    }

    /// Lines until so many are written. Where the log may be cut stands a call of gettid: no line is held there.
    fn all(&mut self) -> io::Result<()> {
        self.begin()?;
        let mut turn = 0;
        while self.left > 0 {
            turn += 1;
            let at = self.d.below(self.live.len() as u64) as usize;
            let turns = if self.sizes.descriptors > 0 { 4000 } else { 40_000 };
            let (few, many) = (self.sizes.live, self.sizes.live + 20);
            let may_end = at > KEEPER && self.live[at].waits.is_none();
            match turn {
                _ if turn % turns == 0 => self.births_with_held(48, self.sizes.held.saturating_sub(100))?,
                _ if turn % 100 == 0 && self.live.len() < few => {
                    let lines = self.d.below(8) as usize;
                    self.births_with_held(1, lines)?;
                }
                _ if turn % 100 == 50 && self.live.len() >= few && may_end => self.exit(at)?,
                _ if turn % 10 == 5 && self.live.len() > many && may_end => self.exit(at)?,
                _ if turn % 1000 == 999 => self.line(ROOT, "gettid() = 100")?,
                _ => self.any_line(at)?,
            }
        }
        Ok(())
    }
}

pub fn generate(out: impl Write, w: &World, m: Machine, n: u64, d: Draws, sizes: Sizes) -> io::Result<()> {
    let live: Vec<Process> = m.procs.pids().iter().map(|pid| Process {
        pid: *pid,
        waits: None,
        next: FIRST_FOLLOWED,
        followed: Vec::new(),
    }).collect();
    let mut log = Log { out, w, m, d, sizes, live, next_pid: FIRST_CHILD, followed: 0, left: n };
    log.all()
}
