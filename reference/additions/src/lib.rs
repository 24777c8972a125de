//! What the programs and the interface to C have beyond the paper, after docs/GUIDE.md and docs/DECISIONS.md: the console,
//! and the texts of section "Case file" in lent buffers.

pub mod console;
pub mod texts;
