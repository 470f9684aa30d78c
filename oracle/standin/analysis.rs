//! A stand-in for optd's analyses. `connecting_edge_indices`, cut verbatim out
//! of the published analysis.rs, follows at the end of this file when it is built.

use std::ops::Index;

use crate::hypergraph::{NodeSet, QueryHypergraph};
use crate::{Column, Expr, ExprData, Operator, OperatorData, QueryContext};

pub type AnalysisResult<T> = Result<T, AnalysisError>;

/// An analysis was asked of an operator that it does not cover here.
#[derive(Debug)]
pub struct AnalysisError;

impl std::fmt::Display for AnalysisError {
    fn fmt(&self, f: &mut std::fmt::Formatter<'_>) -> std::fmt::Result {
        f.write_str("not covered by the stand-in")
    }
}

/// Imported by hypergraph.rs, which does not use it.
pub trait Analysis {}

pub trait Analyzable {
    type Value;

    fn get(ctx: &QueryContext, op: Operator) -> AnalysisResult<Self::Value>;
}

/// Row estimates and total costs, as far as a cost model has made them.
#[derive(Default)]
pub struct AnalysisContext {
    /// Estimated rows of each operator costed so far.
    pub rows: Rows,
    /// Notes in the order in which operators were costed.
    pub costed: Vec<Costed>,
}

/// Row estimates by the operator's number; NaN where none is noted.
#[derive(Default)]
pub struct Rows(Vec<f64>);

impl Rows {
    pub fn insert(&mut self, operator: Operator, rows: f64) {
        let place = operator.index();
        if self.0.len() <= place {
            self.0.resize(place + 1, f64::NAN);
        }
        self.0[place] = rows;
    }
}

impl Index<&Operator> for Rows {
    type Output = f64;

    fn index(&self, operator: &Operator) -> &f64 {
        &self.0[operator.index()]
    }
}

/// An operator's total cost, and the visits counted until it was costed.
pub struct Costed {
    pub operator: Operator,
    pub total: f64,
    pub visits: u64,
}

impl AnalysisContext {
    pub fn get<A: Analyzable>(
        &mut self,
        ctx: &QueryContext,
        op: Operator,
    ) -> AnalysisResult<A::Value> {
        A::get(ctx, op)
    }

    pub fn clear(&mut self) {
        *self = Self::default();
    }
}

/// The columns that a scan gives, in order.
pub struct AvailableColumns;

impl Analyzable for AvailableColumns {
    type Value = Vec<Column>;

    fn get(ctx: &QueryContext, op: Operator) -> AnalysisResult<Vec<Column>> {
        match op.get(ctx) {
            OperatorData::Scan(scan) => Ok(scan.columns.clone()),
            _ => Err(AnalysisError),
        }
    }
}

/// Named by `DefaultCostModel`, which the oracle does not call.
pub struct CardinalityEstimationV1;

pub struct CardinalityProfile {
    pub rows: Estimate,
    pub columns: Vec<Column>,
}

pub struct Estimate {
    pub value: f64,
}

impl Analyzable for CardinalityEstimationV1 {
    type Value = CardinalityProfile;

    fn get(_ctx: &QueryContext, _op: Operator) -> AnalysisResult<CardinalityProfile> {
        Err(AnalysisError)
    }
}

/// The columns that an expression names, each once, in reading order.
pub fn expr_used_columns(
    ctx: &QueryContext,
    _analyses: &mut AnalysisContext,
    expr: Expr,
) -> AnalysisResult<Vec<Column>> {
    let mut columns = Vec::new();
    collect_columns(ctx, expr, &mut columns);
    Ok(columns)
}

fn collect_columns(ctx: &QueryContext, expr: Expr, columns: &mut Vec<Column>) {
    match expr.get(ctx) {
        ExprData::Literal(_) => {}
        ExprData::ColumnRef(column) => {
            if !columns.contains(column) {
                columns.push(*column);
            }
        }
        ExprData::Binary { left, right, .. } => {
            collect_columns(ctx, *left, columns);
            collect_columns(ctx, *right, columns);
        }
        ExprData::Nary { exprs, .. } | ExprData::ScalarFunction { args: exprs, .. } => {
            for part in exprs {
                collect_columns(ctx, *part, columns);
            }
        }
    }
}

/// `connecting_edge_indices`, for callers outside this crate.
pub fn connecting_edges(left: NodeSet, right: NodeSet, hg: &QueryHypergraph) -> Vec<usize> {
    connecting_edge_indices(left, right, hg)
}
