//! Reference working of a lipped C or Z section, from documents 01 and 02 alone.
//!
//! Slow and plain on purpose: wide integers, every intermediate pair kept.

// The working, certificates, reports and the table of lip coefficients.
pub mod catalogue;
pub mod lip_table;
pub mod pair;
pub mod rules;
pub mod sheet;
pub mod text;
pub mod working;

/// Demand 3.
pub mod finer;

/// The working before W-205.
pub mod refining;

// Sheet B worked step by step, from the formulas' text.
pub mod formula;
pub mod steps;
pub mod worked_example;

// Sheets and texts to try, with fixed or given seeds.
pub mod cases;
pub mod chance;
pub mod damage;
pub mod edges;
pub mod generate;
pub mod kinds;
pub mod limits;
pub mod named;
pub mod random;
pub mod rising;
pub mod section_cases;
pub mod thresholds;

/// Files of the repository that the reference makes.
pub mod kept;

/// Files of the repository that constants and words are read from.
pub mod repository;
