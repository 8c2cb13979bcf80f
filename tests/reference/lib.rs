//! Document 01 written down a second time, for comparison only: as plain as it can be, slow where
//! plain is slow, and written from the document's text alone.
//! `table` is the scan, `announce` the check's numbers, `model` the streams, `program` the lines.

pub mod announce;
pub mod model;
pub mod program;
pub mod table;
