//! The mill's cost model as optd's `CostModel`: document 01's rows and cost, with
//! request 2026-01's rows for each join type.

use optd_core::analysis::{AnalysisContext, Costed};
use optd_core::cost::CostModel;
use optd_core::optimize::{OptimizeError, OptimizeResult};
use optd_core::{Expr, ExprData, JoinType, NaryOp, Operator, OperatorData, QueryContext, visits};

use crate::sheet::{FULL_SELECTIVITY, MAX_ROWS, Sheet};

/// Operator n is item n of the sheet; predicate n is expression `first_predicate + n`.
pub struct MillModel {
    sheet: Sheet,
    first_predicate: usize,
}

impl MillModel {
    pub fn new(sheet: &Sheet, first_predicate: usize) -> Self {
        MillModel { sheet: sheet.clone(), first_predicate }
    }

    /// The number of the sheet's predicate that an expression stands for.
    pub fn predicate(&self, expr: Expr) -> usize {
        expr.index() - self.first_predicate
    }

    /// A predicate's selectivity (document 01: share) as a part of 1.
    fn selectivity(&self, expr: Expr) -> f64 {
        let predicate = &self.sheet.predicates[self.predicate(expr)];
        f64::from(predicate.selectivity) / f64::from(FULL_SELECTIVITY)
    }

    /// Notes the candidate's rows and gives its local cost: row pairs plus rows.
    fn candidate_cost(
        &self,
        candidate: Operator,
        join_type: &JoinType,
        [outer, inner]: [Operator; 2],
        predicates: &[Expr],
        analyses: &mut AnalysisContext,
    ) -> f64 {
        let [left, right] = [outer, inner].map(|input| analyses.rows[&input]);
        let pairs = left * right;
        let filtered =
            predicates.iter().fold(pairs, |rows, predicate| rows * self.selectivity(*predicate));
        let rows = rows_by_type(join_type, filtered, left, right).min(MAX_ROWS);
        analyses.rows.insert(candidate, rows);
        pairs + rows
    }
}

/// Request 2026-01: rows of a join, from what its predicates leave of the row
/// pairs and from the rows of its two inputs.
fn rows_by_type(join_type: &JoinType, filtered: f64, left: f64, right: f64) -> f64 {
    match join_type {
        JoinType::Inner => filtered,
        JoinType::LeftSemi | JoinType::LeftAnti => filtered.min(left),
        JoinType::LeftOuter => filtered.max(left),
        JoinType::RightOuter => filtered.max(right),
        JoinType::FullOuter => filtered.max(left).max(right),
        JoinType::Single | JoinType::LeftMark { .. } => left,
    }
}

/// The predicates of a join condition, none of which is an And.
fn conjuncts(on: Expr, ctx: &QueryContext) -> Vec<Expr> {
    match on.get(ctx) {
        ExprData::Nary { op: NaryOp::And, exprs } => exprs.clone(),
        _ => vec![on],
    }
}

impl CostModel for MillModel {
    type Cost = f64;

    fn zero(&self) -> f64 {
        0.0
    }

    fn add(&self, left: f64, right: f64) -> f64 {
        left + right
    }

    fn is_better(&self, candidate: &f64, existing: &f64) -> bool {
        candidate < existing
    }

    fn operator_cost(
        &self,
        op: Operator,
        ctx: &QueryContext,
        analyses: &mut AnalysisContext,
    ) -> OptimizeResult<f64> {
        match op.get(ctx) {
            OperatorData::Scan(scan) => {
                let rows = f64::from(self.sheet.items[op.index()].rows);
                analyses.rows.insert(op, rows);
                Ok(rows * scan.columns.len().max(1) as f64)
            }
            OperatorData::Join(join) => {
                let predicates = conjuncts(join.on, ctx);
                let inputs = [join.outer, join.inner];
                Ok(self.candidate_cost(op, &join.join_type, inputs, &predicates, analyses))
            }
            OperatorData::CrossProduct(product) => {
                let inputs = [product.outer, product.inner];
                Ok(self.candidate_cost(op, &JoinType::Inner, inputs, &[], analyses))
            }
            _ => Err(OptimizeError::PassError {
                pass: "MillModel",
                message: format!("{op} is no scan, join or cross product"),
            }),
        }
    }
}

/// The model, with a note in `analyses.costed` of each operator it costs. The
/// sums are those of `CostModel`'s own `total_cost_from_children`.
pub struct Noting(pub MillModel);

impl CostModel for Noting {
    type Cost = f64;

    fn zero(&self) -> f64 {
        self.0.zero()
    }

    fn add(&self, left: f64, right: f64) -> f64 {
        self.0.add(left, right)
    }

    fn is_better(&self, candidate: &f64, existing: &f64) -> bool {
        self.0.is_better(candidate, existing)
    }

    fn operator_cost(
        &self,
        op: Operator,
        ctx: &QueryContext,
        analyses: &mut AnalysisContext,
    ) -> OptimizeResult<f64> {
        self.0.operator_cost(op, ctx, analyses)
    }

    fn total_cost_from_children(
        &self,
        op: Operator,
        child_costs: &[f64],
        ctx: &QueryContext,
        analyses: &mut AnalysisContext,
    ) -> OptimizeResult<f64> {
        let total = self.0.total_cost_from_children(op, child_costs, ctx, analyses)?;
        analyses.costed.push(Costed { operator: op, total, visits: visits::counted() });
        Ok(total)
    }
}
