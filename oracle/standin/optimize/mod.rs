//! A stand-in for optd's pass interfaces.

#[allow(dead_code)]
pub mod join_ordering;

use crate::{Operator, OptimizerContext};

#[derive(Debug)]
pub enum OptimizeError {
    PassError { pass: &'static str, message: String },
}

pub type OptimizeResult<T> = Result<T, OptimizeError>;

pub trait Pass {
    fn name(&self) -> &'static str;
}

pub enum PassResult {
    Unchanged,
    Changed,
}

pub trait QueryPass: Pass {
    fn run(&mut self, ctx: &mut OptimizerContext) -> OptimizeResult<PassResult>;
}

/// Takes the replacements of `JoinOrdering::run`, which the oracle does not call.
pub struct RewriteMap;

impl RewriteMap {
    pub fn replace(&mut self, _old: Operator, _new: Operator) {}
}

pub(crate) fn materialize_reachable_rewrites(_root: Operator, _ctx: &mut OptimizerContext) {}
