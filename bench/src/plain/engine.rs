//! The search under a schedule: the tests in the order of docs/SPECIFICATION.md, §10.2, then the events.

use super::bag::{Bag, Pool};
use super::event::{malformed, Entry, Kind, TABLE};
use super::file::File;
use super::numbers::*;
use super::{LabelLists, NodeLists, RowLists};
use std::mem;

/// An edge that a worker is at: its start, its place among the targets, and where its row ends.
#[derive(Clone, Copy)]
struct Edge {
    start: u16,
    place: u16,
    end: u16,
}

/// What a worker is doing.
#[derive(Clone, Copy, Default)]
enum Phase {
    #[default]
    Free,
    Holding(Edge),
    InHand(Edge, u16),
    Marked(Edge, u16),
    Named(Edge, u16),
}

impl Edge {
    /// At this edge, or free where the row has ended.
    fn phase(self) -> Phase {
        if self.place < self.end {
            Phase::Holding(self)
        } else {
            Phase::Free
        }
    }

    fn pass_on(self) -> Phase {
        Edge {
            place: self.place + 1,
            ..self
        }
        .phase()
    }
}

#[derive(Clone, Copy, Default)]
struct Worker {
    phase: Phase,
    input: Bag,
    output: Bag,
}

impl Worker {
    fn idle(&self) -> bool {
        matches!(self.phase, Phase::Free) && self.input.is_empty()
    }
}

/// A run of a schedule over rows that were read.
struct Run<'a> {
    offsets: &'a [u16],
    targets: &'a [u16],
    distances: &'a mut [u16],
    parents: &'a mut [u16],
    histogram: &'a mut [u16],
    pool: Pool<'a>,
    crew: [Worker; MOST_WORKERS],
    workers: usize,
    layer: u16,
}

impl Run<'_> {
    /// The opening: the source alone is labelled and counted, and alone in worker 0's input bag.
    fn open(&mut self, source: usize) {
        self.distances.fill(UNSET);
        self.parents.fill(UNSET);
        self.distances[source] = 0;
        self.parents[source] = source as u16;
        self.histogram.fill(0);
        self.histogram[0] = 1;
        self.crew[0].input.insert(source as u16, &mut self.pool);
    }

    /// Plays the schedule up to its finishing event: number, events used, effective events, layer.
    fn play(&mut self, schedule: &[u8]) -> [u32; 4] {
        let mut effective = 0;
        for (place, &byte) in schedule.iter().enumerate() {
            let Entry { kind, w, v } = TABLE[usize::from(byte)];
            let (w, v) = (usize::from(w), usize::from(v));
            let acted = match kind {
                Kind::Work => self.work(w),
                Kind::Split => self.split(w, v),
                Kind::Unite => self.unite(w, v),
                // A close: no malformed byte passes the form check.
                _ => {
                    let closes = self.closes();
                    if closes && !self.next_layer() {
                        let used = place as u32 + 1;
                        return [DONE as u32, used, effective + 1, self.layer.into()];
                    }
                    closes
                }
            };
            effective += u32::from(acted);
        }
        let used = schedule.len() as u32;
        [SPENT as u32, used, effective, self.layer.into()]
    }

    /// Kind 0: worker w moves once.
    fn work(&mut self, w: usize) -> bool {
        let worker = &mut self.crew[w];
        worker.phase = match worker.phase {
            Phase::Free => {
                if worker.input.is_empty() {
                    return false;
                }
                let Some(start) = worker.input.take(&mut self.pool) else {
                    return false;
                };
                let vertex = usize::from(start);
                let (place, end) = (self.offsets[vertex], self.offsets[vertex + 1]);
                Edge { start, place, end }.phase()
            }
            Phase::Holding(edge) => {
                let target = self.targets[usize::from(edge.place)];
                if self.distances[usize::from(target)] == UNSET {
                    Phase::InHand(edge, target)
                } else {
                    edge.pass_on()
                }
            }
            Phase::InHand(edge, target) => {
                let farther = self.layer + 1;
                let distance = &mut self.distances[usize::from(target)];
                self.histogram[usize::from(farther)] += u16::from(*distance == UNSET);
                *distance = farther;
                Phase::Marked(edge, target)
            }
            Phase::Marked(edge, target) => {
                self.parents[usize::from(target)] = edge.start;
                Phase::Named(edge, target)
            }
            Phase::Named(edge, target) => {
                worker.output.insert(target, &mut self.pool);
                edge.pass_on()
            }
        };
        true
    }

    /// Kind 1: w, whose input bag is empty, gets half of v's.
    fn split(&mut self, w: usize, v: usize) -> bool {
        let acts = self.crew[w].input.is_empty() && self.crew[v].input.at_least_two();
        if acts {
            self.crew[w].input = self.crew[v].input.split(&mut self.pool);
        }
        acts
    }

    /// Kind 2: w's output bag goes into v's, if both hold something.
    fn unite(&mut self, w: usize, v: usize) -> bool {
        let acts = !self.crew[w].output.is_empty() && !self.crew[v].output.is_empty();
        if acts {
            let given = mem::take(&mut self.crew[w].output);
            self.crew[v].output.union(given, &mut self.pool);
        }
        acts
    }

    /// Whether a close has its condition met.
    fn closes(&self) -> bool {
        self.crew[..self.workers].iter().all(Worker::idle)
    }

    /// Kind 3: opens the next layer, unless it is empty.
    fn next_layer(&mut self) -> bool {
        let mut next = self.crew[0].input;
        for worker in &mut self.crew[..self.workers] {
            next.union(mem::take(&mut worker.output), &mut self.pool);
        }
        self.crew[0].input = next;
        let opens = !next.is_empty();
        self.layer += u16::from(opens);
        opens
    }
}

/// What a search is asked for.
#[derive(Clone, Copy)]
pub struct Query<'a> {
    pub file: &'a [u8],
    pub source: usize,
    pub workers: usize,
    pub schedule: &'a [u8],
}

/// The call: number, events used, effective events, layer.
pub fn search(
    query: &Query,
    rows: RowLists,
    labels: LabelLists,
    histogram: &mut [u16],
    nodes: NodeLists,
) -> [u32; 4] {
    match run(query, rows, labels, histogram, nodes) {
        Ok(answer) => answer,
        Err(number) => [number as u32, 0, 0, 0],
    }
}

fn run(
    query: &Query,
    mut rows: RowLists,
    labels: LabelLists,
    histogram: &mut [u16],
    nodes: NodeLists,
) -> Result<[u32; 4], usize> {
    let file = accept(query)?;
    let (n, m) = (file.n(), file.m());
    let need = query.workers * n + 1;
    if rows.short(n, m) || labels_short(&labels, histogram, n) || nodes_short(&nodes, need) {
        return Err(SHORT);
    }
    file.unchain(&mut rows)?;
    let mut run = Run {
        offsets: &rows.offsets[..n + 1],
        targets: &rows.targets[..m],
        distances: &mut labels.distances[..n],
        parents: &mut labels.parents[..n],
        histogram: &mut histogram[..n],
        pool: Pool::new(NodeLists {
            left: &mut nodes.left[..need],
            right: &mut nodes.right[..need],
            values: &mut nodes.values[..need],
        }),
        crew: [Worker::default(); MOST_WORKERS],
        workers: query.workers,
        layer: 0,
    };
    run.open(query.source);
    let answer = run.play(query.schedule);
    run.pool.clear();
    Ok(answer)
}

/// The tests up to 9.
fn accept<'a>(query: &Query<'a>) -> Result<File<'a>, usize> {
    let file = File::open(query.file)?;
    if query.source >= file.n() {
        return Err(SOURCE);
    }
    if query.workers == 0 || query.workers > MOST_WORKERS {
        return Err(WORKERS);
    }
    if malformed(query.schedule, query.workers) {
        return Err(SCHEDULE);
    }
    Ok(file)
}

fn labels_short(labels: &LabelLists, histogram: &[u16], n: usize) -> bool {
    labels.distances.len() < n || labels.parents.len() < n || histogram.len() < n
}

fn nodes_short(nodes: &NodeLists, need: usize) -> bool {
    nodes.left.len() < need || nodes.right.len() < need || nodes.values.len() < need
}
