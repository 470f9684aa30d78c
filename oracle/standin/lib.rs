//! A stand-in for optd's core crate: what hypergraph.rs, join_ordering.rs and
//! cost.rs lean on, and no more. Names and shapes are those of optd's lib.rs.
//!
//! Handles are places in an arena; adding always makes a new handle, as in optd.

pub mod analysis;
#[allow(unused_imports)]
pub mod cost;
#[allow(unused_imports, dead_code)]
pub mod hypergraph;
pub mod optimize;
pub mod visits;

pub use analysis::{
    AnalysisContext, AnalysisError, AnalysisResult, Analyzable, AvailableColumns,
    CardinalityProfile, expr_used_columns,
};
pub use hypergraph::build_hypergraph;

use optimize::RewriteMap;

/// A relational operator's place in a [`QueryContext`].
#[derive(Debug, Clone, Copy, PartialEq, Eq, Hash)]
pub struct Operator(usize);

/// A scalar expression's place in a [`QueryContext`].
#[derive(Debug, Clone, Copy, PartialEq, Eq, Hash)]
pub struct Expr(usize);

/// A column's place in a [`QueryContext`].
#[derive(Debug, Clone, Copy, PartialEq, Eq, Hash)]
pub struct Column(usize);

impl Operator {
    pub fn get(self, ctx: &QueryContext) -> &OperatorData {
        &ctx.operators[self.0]
    }

    /// The operator's number in order of adding, from 0.
    pub fn index(self) -> usize {
        self.0
    }
}

impl Expr {
    pub fn get(self, ctx: &QueryContext) -> &ExprData {
        &ctx.exprs[self.0]
    }

    /// The expression's number in order of adding, from 0.
    pub fn index(self) -> usize {
        self.0
    }
}

impl std::fmt::Display for Operator {
    fn fmt(&self, f: &mut std::fmt::Formatter<'_>) -> std::fmt::Result {
        write!(f, "@{}", self.0)
    }
}

/// All operators that the published files name; only `Scan`, `Join` and
/// `CrossProduct` are ever made here.
pub enum OperatorData {
    Scan(Scan),
    Selection(Unary),
    Map(Unary),
    TableFunction(TableFunction),
    Join(Join),
    CrossProduct(CrossProduct),
    Sort(Unary),
    Limit(Unary),
    Aggregation(Unary),
    Projection(Unary),
    Output(Unary),
    Rename(Rename),
    ConstScan(ConstScan),
}

pub struct Scan {
    pub table: String,
    pub columns: Vec<Column>,
}

pub struct Unary {
    pub input: Operator,
}

pub struct TableFunction {
    pub function: String,
}

pub struct Join {
    pub join_type: JoinType,
    pub on: Expr,
    pub outer: Operator,
    pub inner: Operator,
}

pub struct CrossProduct {
    pub outer: Operator,
    pub inner: Operator,
}

pub struct Rename {
    pub alias: String,
    pub input: Operator,
}

pub struct ConstScan;

#[derive(Clone, PartialEq)]
pub enum JoinType {
    Inner,
    LeftSemi,
    LeftAnti,
    LeftOuter,
    RightOuter,
    FullOuter,
    Single,
    LeftMark { marker: Column, nullable: bool },
}

pub enum ExprData {
    Literal(ScalarValue),
    ColumnRef(Column),
    Binary {
        op: BinaryOp,
        left: Expr,
        right: Expr,
    },
    Nary {
        op: NaryOp,
        exprs: Vec<Expr>,
    },
    ScalarFunction {
        function: String,
        args: Vec<Expr>,
    },
}

pub enum ScalarValue {
    Boolean(bool),
}

pub enum BinaryOp {
    Eq,
    IsNotDistinctFrom,
    Lt,
    LtEq,
    Gt,
    GtEq,
}

pub enum NaryOp {
    And,
    Or,
}

pub struct ColumnData {
    pub name: String,
}

impl OperatorData {
    #[allow(clippy::should_implement_trait)]
    pub fn add(self, ctx: &mut QueryContext) -> Operator {
        ctx.operators.push(self);
        Operator(ctx.operators.len() - 1)
    }
}

impl ExprData {
    #[allow(clippy::should_implement_trait)]
    pub fn add(self, ctx: &mut QueryContext) -> Expr {
        ctx.exprs.push(self);
        Expr(ctx.exprs.len() - 1)
    }
}

impl ColumnData {
    #[allow(clippy::should_implement_trait)]
    pub fn add(self, ctx: &mut QueryContext) -> Column {
        ctx.columns.push(self);
        Column(ctx.columns.len() - 1)
    }
}

/// The operators that an operator reads.
pub trait Relation {
    fn inputs(&self) -> Vec<Operator>;
}

impl Relation for OperatorData {
    fn inputs(&self) -> Vec<Operator> {
        match self {
            Self::Scan(_) | Self::TableFunction(_) | Self::ConstScan(_) => vec![],
            Self::Join(join) => vec![join.outer, join.inner],
            Self::CrossProduct(product) => vec![product.outer, product.inner],
            Self::Rename(rename) => vec![rename.input],
            Self::Selection(unary)
            | Self::Map(unary)
            | Self::Sort(unary)
            | Self::Limit(unary)
            | Self::Aggregation(unary)
            | Self::Projection(unary)
            | Self::Output(unary) => vec![unary.input],
        }
    }
}

/// The query: arenas of operators, expressions and columns, and a root.
#[derive(Default)]
pub struct QueryContext {
    root: Option<Operator>,
    operators: Vec<OperatorData>,
    exprs: Vec<ExprData>,
    columns: Vec<ColumnData>,
}

impl QueryContext {
    pub fn root(&self) -> Option<Operator> {
        self.root
    }

    pub fn set_root(&mut self, root: Operator) {
        self.root = Some(root);
    }

    pub fn operator(&self, operator: Operator) -> &OperatorData {
        operator.get(self)
    }

    pub fn operator_count(&self) -> usize {
        self.operators.len()
    }

    pub fn column(&self, column: Column) -> &ColumnData {
        &self.columns[column.0]
    }

    /// How many operators and expressions there are.
    pub fn sizes(&self) -> [usize; 2] {
        [self.operators.len(), self.exprs.len()]
    }

    /// Drops the operators and expressions added since the sizes were these.
    pub fn truncate(&mut self, [operators, exprs]: [usize; 2]) {
        self.operators.truncate(operators);
        self.exprs.truncate(exprs);
    }
}

/// What `JoinOrdering::run` takes; the oracle calls `solve` below it.
pub struct OptimizerContext {
    pub query: QueryContext,
    pub analyses: AnalysisContext,
    pub rewrites: RewriteMap,
    pub optimizer_run_id: u64,
}

/// Names expressions in `QueryHypergraph::pretty`.
pub struct QueryFormatter;

impl QueryFormatter {
    pub fn new(_ctx: &QueryContext) -> Self {
        Self
    }

    pub fn format_expr_pub(&self, expr: Expr) -> String {
        format!("expr@{}", expr.0)
    }
}
