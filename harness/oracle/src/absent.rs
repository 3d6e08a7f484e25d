//! The same face where there is no source: neither driver can be made.

use crate::{Answer, Job, Rows};

pub enum Direct {}

pub enum Whole {}

/// Of no use without a driver.
pub struct Matrix;

impl Matrix {
    pub fn new(_height: u32, _width: u32, _values: &[i16]) -> Matrix {
        Matrix
    }

    pub fn values(&self) -> &[i16] {
        &[]
    }
}

impl Direct {
    pub fn new() -> Option<Direct> {
        None
    }

    pub fn run(&mut self, _job: &Job, _matrix: &Matrix) -> Answer {
        match *self {}
    }

    pub fn rows(&mut self, _job: &Job, _rows: &mut Rows) {
        match *self {}
    }
}

impl Whole {
    pub fn new() -> Option<Whole> {
        None
    }

    pub fn run(&mut self, _job: &Job, _matrix: &Matrix) -> Option<Answer> {
        match *self {}
    }

    pub fn rows(&mut self, _job: &Job, _rows: &mut Rows) {
        match *self {}
    }
}
