//! Makes the Rust's matrix from document 01's. Its `load` reads sizes as i16, and document 01 has
//! larger ones.

use super::{ConnectionCostMatrix, CostStorage};

pub struct Matrix(pub(crate) ConnectionCostMatrix);

impl Matrix {
    pub fn new(height: u32, width: u32, values: &[i16]) -> Matrix {
        let storage = CostStorage::Owned(values.to_vec());
        Matrix(ConnectionCostMatrix::from_storage(storage, width, height))
    }

    /// The values where the Rust reads them, for another to read them there too.
    pub fn values(&self) -> &[i16] {
        self.0.costs()
    }
}
