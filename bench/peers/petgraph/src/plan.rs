//! Plans: a workqueue for each group, by the longest waiting chain from it.

use crate::declaration::{Declaration, Flush};
use petgraph::algo::toposort;
use petgraph::graph::{DiGraph, NodeIndex};
use petgraph::visit::EdgeRef;
use std::io::{self, Write};

/// The groups, and an edge for each flush, in the order of the text.
type WaitGraph = DiGraph<(), Flush>;

/// The names of the items on each workqueue, and those of the flushes along a longest chain.
pub struct Plan<'a> {
    queues: Vec<Vec<&'a [u8]>>,
    chain: Vec<(&'a [u8], &'a [u8])>,
}

fn wait_graph(declaration: &Declaration) -> WaitGraph {
    let mut graph = WaitGraph::with_capacity(declaration.groups, declaration.flushes.len());
    for _ in 0..declaration.groups {
        graph.add_node(());
    }
    for flush in &declaration.flushes {
        let source = NodeIndex::new(declaration.group_of[flush.item]);
        let target = NodeIndex::new(declaration.group_of[flush.target]);
        graph.add_edge(source, target, *flush);
    }
    graph
}

/// Of each group the length of the longest chain from it, less one. `None` where the groups wait in a circle.
fn ranks(graph: &WaitGraph) -> Option<Vec<usize>> {
    let mut ranks = vec![0; graph.node_count()];
    for group in toposort(graph, None).ok()?.into_iter().rev() {
        let below = graph
            .neighbors(group)
            .map(|target| ranks[target.index()] + 1);
        ranks[group.index()] = below.max().unwrap_or(0);
    }
    Some(ranks)
}

/// The flushes along a longest chain: from the first group of the highest rank by its first edge to the rank below.
fn longest_chain(graph: &WaitGraph, ranks: &[usize]) -> Vec<Flush> {
    let mut chain = Vec::new();
    let highest = ranks.iter().max();
    let mut next = graph
        .node_indices()
        .find(|group| Some(&ranks[group.index()]) == highest);
    while let Some(group) = next {
        let edge = graph
            .edges(group)
            .filter(|edge| ranks[edge.target().index()] + 1 == ranks[group.index()])
            .min_by_key(|edge| edge.id());
        chain.extend(edge.map(|edge| *edge.weight()));
        next = edge.map(|edge| edge.target());
    }
    chain
}

impl<'a> Plan<'a> {
    /// The plan of a declaration, if there is one.
    pub fn new(declaration: &Declaration<'a>) -> Option<Self> {
        let graph = wait_graph(declaration);
        let ranks = ranks(&graph)?;
        let mut queues = vec![Vec::new(); ranks.iter().max().map_or(0, |highest| highest + 1)];
        for (name, group) in declaration.names.iter().zip(&declaration.group_of) {
            queues[ranks[*group]].push(*name);
        }
        let chain = longest_chain(&graph, &ranks)
            .into_iter()
            .map(|flush| {
                (
                    declaration.names[flush.item],
                    declaration.names[flush.target],
                )
            })
            .collect();
        Some(Plan { queues, chain })
    }

    pub fn write(&self, out: &mut impl Write) -> io::Result<()> {
        writeln!(out, "plan {}", self.queues.len())?;
        for (number, names) in self.queues.iter().enumerate() {
            write!(out, "wq {number}")?;
            for name in names {
                out.write_all(b" ")?;
                out.write_all(name)?;
            }
            out.write_all(b"\n")?;
        }
        writeln!(out, "chain {}", self.queues.len())?;
        for (item, target) in &self.chain {
            out.write_all(b"arc ")?;
            out.write_all(item)?;
            out.write_all(b" ")?;
            out.write_all(target)?;
            out.write_all(b"\n")?;
        }
        Ok(())
    }
}
