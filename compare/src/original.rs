//! The original Rust: the text of its functions as it stands in its sources
//! (see build.rs), over stand-ins for the crates that it leans on.

mod ast;
mod indexmap;
mod petgraph;
mod queue;
mod rustc_hash;

use std::cell::RefCell;
use std::panic::{catch_unwind, resume_unwind, AssertUnwindSafe};
use std::rc::Rc;

use crate::plain::Project;
use ast::Module;
use graph::{Required, StmtDepGraph};
use queue::{read_meter, start_meter, Cut};

/// In place of swc's shared pointer.
type Lrc<T> = Rc<T>;

#[derive(Clone, Copy, Debug, PartialEq, Eq, Hash)]
struct ModuleId(u32);

type ModuleGraph = petgraph::GraphMap<ModuleId, (), petgraph::Directed, rustc_hash::FxBuildHasher>;

/// The text writes to a log in debug builds; here nothing is written.
#[allow(unused_macros, unused_imports)]
mod tracing {
    macro_rules! debug {
        ($($part:tt)*) => {};
    }
    macro_rules! info {
        ($($part:tt)*) => {};
    }
    pub(super) use {debug, info};
}

/// The whole of graph.rs, with its own `use` lines: its queue is std's and is
/// not counted.
#[allow(dead_code, clippy::manual_repeat_n)]
mod graph {
    use super::{petgraph, rustc_hash};

    include!(concat!(env!("OUT_DIR"), "/graph.rs"));
}

/// From stmt.rs: `sort_stmts`, `is_injected_module_item` and `iter`.
#[allow(unused_imports, unused_variables)]
mod stmt {
    use std::{iter::from_fn, ops::Range};

    use super::ast::*;
    use super::graph::{Required, StmtDepGraph};
    use super::petgraph::EdgeDirection::{Incoming as Dependants, Outgoing as Dependencies};
    use super::queue::ItemQueue as VecDeque;
    use super::rustc_hash::FxHashSet;
    use super::{calc_deps, tracing, Lrc};

    include!(concat!(env!("OUT_DIR"), "/stmt.rs"));
}

/// From chunk.rs: `toposort_real_modules`, `cycles_for` and
/// `toposort_real_module_ids`.
#[allow(unused_imports, unused_variables)]
mod chunk {
    use std::{iter::from_fn, mem::take, time::Instant};

    use super::ast::*;
    use super::indexmap::IndexSet;
    use super::petgraph::EdgeDirection::Outgoing;
    use super::queue::ModuleQueue as VecDeque;
    use super::rustc_hash::{FxBuildHasher, FxHashSet};
    use super::stmt::sort_stmts;
    use super::{tracing, Lrc, ModuleGraph, ModuleId};

    include!(concat!(env!("OUT_DIR"), "/chunk.rs"));

    /// `toposort_real_modules` for the files above.
    pub(super) fn order(
        modules: Vec<(ModuleId, Module)>,
        entry: ModuleId,
        graph: &ModuleGraph,
        cycles: &[Vec<ModuleId>],
    ) -> Vec<Chunk> {
        let cm = Lrc::new(SourceMap);
        toposort_real_modules(INJECTED, modules, entry, graph, cycles, &cm)
    }

    /// `toposort_real_module_ids` over the queue that `toposort_real_modules`
    /// would give it.
    pub(super) fn groups(
        modules: impl Iterator<Item = ModuleId>,
        entry: ModuleId,
        graph: &ModuleGraph,
        cycles: &[Vec<ModuleId>],
    ) -> Vec<Vec<ModuleId>> {
        let mut queue = modules.collect::<VecDeque<_>>();
        queue.push_front(entry);
        toposort_real_module_ids(queue, graph, cycles).collect()
    }
}

/// Needs in row order. An item's row says which list its group's are in.
#[derive(Default)]
struct Needs {
    lists: Vec<Vec<(usize, usize, u8)>>,
    list_of: Vec<usize>,
}

thread_local! {
    /// The needs of the project that is being sorted.
    static NEEDS: RefCell<Rc<Needs>> = RefCell::default();
}

/// "`calc_deps` replaced by a graph of the group's kept items and, in row
/// order, the needs whose two ends are among them".
fn calc_deps(new: &[ast::ModuleItem]) -> StmtDepGraph {
    const NONE: u16 = u16::MAX;
    let mut graph = StmtDepGraph::default();
    let mut number_of = [NONE; 256];
    for (number, item) in new.iter().enumerate() {
        graph.add_node(number);
        number_of[ast::row(item)] = number as u16;
    }
    let Some(first) = new.first() else {
        return graph;
    };
    NEEDS.with_borrow(|needs| {
        for &(x, d, weight) in &needs.lists[needs.list_of[ast::row(first)]] {
            let (x, d) = (number_of[x], number_of[d]);
            if x != NONE && d != NONE {
                graph.add_edge(x as usize, d as usize, required(weight));
            }
        }
    });
    graph
}

fn required(weight: u8) -> Required {
    match weight {
        0 => Required::Always,
        _ => Required::Maybe,
    }
}

/// How a run of the original came out.
#[derive(Clone, Debug, PartialEq, Eq)]
pub enum End<T> {
    Ended(T),
    /// Left where document 01 says 11.
    Spent,
    /// Left where document 01 says 12.
    Full,
    /// The original panicked.
    Panicked,
}

#[derive(Clone, Debug, PartialEq, Eq)]
pub struct Run<T> {
    pub end: End<T>,
    pub module_visits: u32,
    pub item_visits: u32,
}

/// A project in the shapes that the original takes.
pub struct Given {
    entry: ModuleId,
    modules: usize,
    graph: ModuleGraph,
    cycles: Vec<Vec<ModuleId>>,
    items: Vec<(usize, u8)>,
    needs: Rc<Needs>,
}

impl Given {
    pub fn new(project: &Project) -> Given {
        let id = |m: usize| ModuleId(m as u32);
        let mut graph = ModuleGraph::default();
        for m in 0..project.modules {
            graph.add_node(id(m));
        }
        for &(importer, imported) in &project.imports {
            graph.add_edge(id(importer), id(imported), ());
        }
        let lists = project.circles.iter();
        Given {
            entry: id(project.entry),
            modules: project.modules,
            graph,
            cycles: lists
                .map(|list| list.iter().map(|&m| id(m)).collect())
                .collect(),
            items: project.items.clone(),
            needs: Rc::new(Needs {
                lists: vec![project.needs.clone()],
                list_of: vec![0; project.items.len()],
            }),
        }
    }

    /// The same with each group's needs in a list of its own, so that a group
    /// does not look through those of others. `group_of` gives the group of
    /// each item.
    pub fn grouped(project: &Project, group_of: Vec<usize>) -> Given {
        let groups = group_of.iter().map(|group| group + 1).max().unwrap_or(0);
        let mut lists = vec![Vec::new(); groups];
        for &(x, d, weight) in &project.needs {
            if group_of[x] == group_of[d] {
                lists[group_of[x]].push((x, d, weight));
            }
        }
        let needs = Rc::new(Needs {
            lists,
            list_of: group_of,
        });
        Given {
            needs,
            ..Given::new(project)
        }
    }

    fn module_ids(&self) -> impl Iterator<Item = ModuleId> {
        (0..self.modules as u32).map(ModuleId)
    }

    fn bodies(&self) -> Vec<(ModuleId, Module)> {
        let mut bodies: Vec<(ModuleId, Module)> = self
            .module_ids()
            .map(|id| (id, Module { body: Vec::new() }))
            .collect();
        for (row, &(module, kind)) in self.items.iter().enumerate() {
            bodies[module].1.body.push(ast::item(row, kind));
        }
        bodies
    }
}

/// The groups by `toposort_real_module_ids`. The allowance is taken as it is.
pub fn groups(given: &Given, allowance: u32) -> Run<Vec<Vec<usize>>> {
    run(allowance, || {
        let ids = chunk::groups(given.module_ids(), given.entry, &given.graph, &given.cycles);
        ids.into_iter()
            .map(|group| group.into_iter().map(|id| id.0 as usize).collect())
            .collect()
    })
}

/// The row numbers in the order of `toposort_real_modules`.
pub fn order(given: &Given, allowance: u32) -> Run<Vec<usize>> {
    run(allowance, || {
        NEEDS.set(given.needs.clone());
        let chunks = chunk::order(given.bodies(), given.entry, &given.graph, &given.cycles);
        let stmts = chunks.iter().flat_map(|chunk| &chunk.stmts);
        stmts.map(ast::row).collect()
    })
}

/// The modules' bodies, which a sort takes and uses up.
pub struct Bodies(Vec<(ModuleId, Module)>);

impl Given {
    pub fn fresh_bodies(&self) -> Bodies {
        Bodies(self.bodies())
    }
}

/// What `toposort_real_modules` has returned.
pub struct Sorted {
    _chunks: Vec<chunk::Chunk>,
}

/// `toposort_real_modules` and nothing else, on bodies made before.
pub fn order_only(given: &Given, bodies: Bodies, allowance: u32) -> Run<Sorted> {
    NEEDS.set(given.needs.clone());
    run(allowance, || Sorted {
        _chunks: chunk::order(bodies.0, given.entry, &given.graph, &given.cycles),
    })
}

/// Whether the original's record of paths holds (from, to) after these edges.
pub fn has_a_path(edges: &[(usize, usize)], from: usize, to: usize) -> bool {
    let mut graph = StmtDepGraph::default();
    for &(x, y) in edges {
        graph.add_edge(x, y, Required::Always);
    }
    graph.has_a_path(from, to)
}

/// Runs it, counting visits, up to its end or to where it has to be left.
fn run<T>(allowance: u32, work: impl FnOnce() -> T) -> Run<T> {
    start_meter(allowance);
    let end = match catch_unwind(AssertUnwindSafe(work)) {
        Ok(result) => End::Ended(result),
        Err(thrown) => match thrown.downcast::<Cut>() {
            Ok(cut) if *cut == Cut::Spent => End::Spent,
            Ok(_) => End::Full,
            Err(other) if other.is::<String>() || other.is::<&str>() => End::Panicked,
            Err(other) => resume_unwind(other),
        },
    };
    let meter = read_meter();
    Run {
        end,
        module_visits: meter.module_visits,
        item_visits: meter.item_visits,
    }
}
