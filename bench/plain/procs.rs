//! The live processes by ascending pid. Pids and parents are lists of their own: these two are what is looked through.
use crate::cred::Cred;
use std::rc::Rc;

#[derive(Clone)]
pub struct Proc {
    pub space: u32,
    pub cred: Cred,
    pub groups: Rc<[u32]>,
    pub filter: u32, // the calls that it has excluded by the filters that it installed or inherited
}

#[derive(Clone, Default)]
pub struct Procs {
    pids: Vec<u32>,
    parents: Vec<u32>, // 0: none
    procs: Vec<Proc>,
}

impl Procs {
    pub fn count(&self) -> usize {
        self.pids.len()
    }

    pub fn pids(&self) -> &[u32] {
        &self.pids
    }

    pub fn all(&self) -> impl Iterator<Item = (u32, &Proc)> {
        self.pids.iter().copied().zip(&self.procs)
    }

    /// The nearest living ancestor of each process, in the order of pids; 0 for none.
    #[allow(dead_code)] // the search of tools/witness asks for it
    pub fn parents(&self) -> &[u32] {
        &self.parents
    }

    pub fn has(&self, pid: u32) -> bool {
        self.pids.binary_search(&pid).is_ok()
    }

    pub fn get(&self, pid: u32) -> Option<&Proc> {
        self.pids.binary_search(&pid).ok().map(|at| &self.procs[at])
    }

    pub fn get_mut(&mut self, pid: u32) -> Option<&mut Proc> {
        let at = self.pids.binary_search(&pid).ok()?;
        Some(&mut self.procs[at])
    }

    /// Puts a process in, unless its pid is alive.
    pub fn add(&mut self, pid: u32, parent: u32, p: Proc) -> bool {
        let Err(at) = self.pids.binary_search(&pid) else { return false };
        self.pids.insert(at, pid);
        self.parents.insert(at, parent);
        self.procs.insert(at, p);
        true
    }

    /// Takes a process out; its children get its parent.
    pub fn remove(&mut self, pid: u32) {
        let Ok(at) = self.pids.binary_search(&pid) else { return };
        self.pids.remove(at);
        let up = self.parents.remove(at);
        self.procs.remove(at);
        for parent in &mut self.parents {
            *parent = if *parent == pid { up } else { *parent };
        }
    }
}
