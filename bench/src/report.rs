//! The report on measured loops.

use std::time::Instant;

/// A report with a line for each measured loop.
pub struct Report {
    pub timed: bool,
}

/// The sizes of a cube.
#[derive(Clone, Copy)]
pub struct Shape {
    pub columns: usize,
    pub rows: usize,
    pub bands: usize,
}

impl Shape {
    pub fn sample_count(self) -> usize {
        self.columns * self.rows * self.bands
    }
}

impl Report {
    /// Returns the shape of the cube that the loops go through.
    pub fn shape(&self) -> Shape {
        let (columns, rows, bands) = if self.timed {
            (512, 512, 24)
        } else {
            (23, 17, 5)
        };
        Shape {
            columns,
            rows,
            bands,
        }
    }

    /// Prints the name of a loop, its numbers of samples and of nanoseconds if it is timed, and its checksum.
    pub fn line(&self, name: &str, samples: usize, start: Instant, sum: impl FnOnce() -> u64) {
        let nanos = start.elapsed().as_nanos();
        let checksum = sum();
        if self.timed {
            println!("{name} {samples} {nanos} {checksum:016x}");
        } else {
            println!("{name} {checksum:016x}");
        }
    }
}
