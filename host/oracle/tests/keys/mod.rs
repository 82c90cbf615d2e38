//! The key of a record, for the tests that tell accounts apart.

/// The key as in an entry; of several records that of the first.
pub fn key_of(records: &[u8]) -> Vec<u8> {
    [&records[2..7], &records[11..20], &records[21..32]].concat()
}
