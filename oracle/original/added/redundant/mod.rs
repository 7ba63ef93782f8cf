//! Added: the published source names this module and does not have it. Nothing of it is run.
mod deduplicator;
pub use self::deduplicator::Deduplicator;
