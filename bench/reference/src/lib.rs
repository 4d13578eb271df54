//! A second implementation of docs/KERNELS.md, written from that page alone and as simple as can be: texts are
//! trees, steps are taken one at a time, and each thread keeps everything that it touched. It shares nothing with
//! the crates that are proved, so that the two can be compared.

mod machine;
mod orders;
mod text;

pub use machine::{Clash, Machine};
pub use orders::{drawn, one_after_the_other, DrawnOrder, End, Outcome, Traffic};
pub use text::{read, Text};
