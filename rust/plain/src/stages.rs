//! Stage times for benchmarks.

use std::time::{Duration, Instant};

/// Time taken by each stage of a run.
#[derive(Clone, Copy, Debug, Default, PartialEq, Eq)]
pub struct Stages {
    pub header_and_rows: Duration,
    pub neighbours: Duration,
    pub edges: Duration,
    pub vertices: Duration,
    pub clean: Duration,
    pub points: Duration,
    /// With the tallies, which are counted for them.
    pub proposals: Duration,
    pub list: Duration,
}

pub(crate) enum Stage {
    HeaderAndRows,
    Neighbours,
    Edges,
    Vertices,
    Clean,
    Points,
    Proposals,
    List,
}

/// Told of the end of each stage.
pub(crate) trait Watch {
    fn lap(&mut self, stage: Stage);
}

/// Costs nothing: the untimed run is built with this one.
pub(crate) struct Unwatched;

impl Watch for Unwatched {
    fn lap(&mut self, _: Stage) {}
}

pub(crate) struct Stopwatch<'a> {
    stages: &'a mut Stages,
    last: Instant,
}

impl<'a> Stopwatch<'a> {
    pub(crate) fn start(stages: &'a mut Stages) -> Self {
        Stopwatch {
            stages,
            last: Instant::now(),
        }
    }
}

impl Watch for Stopwatch<'_> {
    fn lap(&mut self, stage: Stage) {
        let now = Instant::now();
        let took = now - self.last;
        match stage {
            Stage::HeaderAndRows => self.stages.header_and_rows = took,
            Stage::Neighbours => self.stages.neighbours = took,
            Stage::Edges => self.stages.edges = took,
            Stage::Vertices => self.stages.vertices = took,
            Stage::Clean => self.stages.clean = took,
            Stage::Points => self.stages.points = took,
            Stage::Proposals => self.stages.proposals = took,
            Stage::List => self.stages.list = took,
        }
        self.last = now;
    }
}
