//! The published Rust, run on an accepted sheet: `build_hypergraph`, then
//! `DPhyp::solve`, and what they made read back in document 01's fields.

use std::collections::HashMap;

use optd_core::analysis::{AnalysisContext, connecting_edges};
use optd_core::hypergraph::{HyperedgeJoinType, QueryHypergraph};
use optd_core::optimize::join_ordering::{Solved, solve_hypergraph};
use optd_core::{
    Column, ColumnData, CrossProduct, Expr, ExprData, Join, JoinType, NaryOp, Operator,
    OperatorData, QueryContext, Relation, Scan, build_hypergraph, visits,
};

use crate::model::{MillModel, Noting};
use crate::outcome::{Edge, Lists, MemoEntry, Plan};
use crate::sheet::{CROSS_PRODUCT, Item, LEAF, NONE, Sheet};

/// The lists; and, if the crate below counts visits (else 0), how many came
/// before each plan, and all.
pub struct Published {
    pub lists: Lists,
    pub visits_before: Vec<u64>,
    pub visits: u64,
}

pub fn run(sheet: &Sheet) -> Published {
    let mut query = query(sheet);
    let mut analyses = AnalysisContext::default();
    let graph = match query.root() {
        Some(root) => build_hypergraph(&query, &mut analyses, root),
        None => QueryHypergraph { nodes: vec![], edges: vec![] },
    };
    let model = Noting(MillModel::new(sheet, sheet.columns.len()));
    visits::reset();
    let solved = solve_hypergraph(&mut query, &mut analyses, &graph, &model)
        .expect("the model covers every operator made");
    assert_eq!(
        analyses.costed.len(),
        query.operator_count() - sheet.items.len() + graph.nodes.len(),
        "one note for each leaf and for each operator that the search made"
    );
    let reading = Reading { query: &query, graph: &graph, model: &model.0, analyses: &analyses };
    Published {
        lists: reading.lists(solved),
        visits_before: analyses.costed.iter().map(|note| note.visits).collect(),
        visits: visits::counted(),
    }
}

/// The sheet as a query: operator n is item n, expression n the sheet's n-th
/// column, the expressions after these the predicates, then the conditions.
pub fn query(sheet: &Sheet) -> QueryContext {
    let mut query = QueryContext::default();
    let columns = columns(sheet, &mut query);
    let refs: Vec<Expr> =
        columns.iter().map(|column| ExprData::ColumnRef(*column).add(&mut query)).collect();
    let predicates: Vec<Expr> = (sheet.predicates.iter())
        .map(|predicate| {
            let args = predicate.range.of(&refs).to_vec();
            ExprData::ScalarFunction { function: "predicate".to_string(), args }.add(&mut query)
        })
        .collect();
    let mut pile = Vec::new();
    for item in &sheet.items {
        let operator = if item.is_leaf() {
            let columns = item.range.of(&columns).to_vec();
            OperatorData::Scan(Scan { table: "leaf".to_string(), columns })
        } else {
            let inner = pile.pop().expect("an accepted walk");
            let outer = pile.pop().expect("an accepted walk");
            join(item, &predicates, [outer, inner], &mut query)
        };
        pile.push(operator.add(&mut query));
    }
    if let Some(root) = pile.pop() {
        query.set_root(root);
    }
    query
}

/// A column handle for each place of the column table, one for each number.
fn columns(sheet: &Sheet, query: &mut QueryContext) -> Vec<Column> {
    let mut handles = HashMap::new();
    let mut handle = |number: &u32| {
        let new = || ColumnData { name: number.to_string() }.add(query);
        *handles.entry(*number).or_insert_with(new)
    };
    sheet.columns.iter().map(&mut handle).collect()
}

fn join(
    item: &Item,
    predicates: &[Expr],
    [outer, inner]: [Operator; 2],
    query: &mut QueryContext,
) -> OperatorData {
    if item.kind == CROSS_PRODUCT {
        return OperatorData::CrossProduct(CrossProduct { outer, inner });
    }
    let on = match item.range.of(predicates) {
        [one] => *one,
        exprs => ExprData::Nary { op: NaryOp::And, exprs: exprs.to_vec() }.add(query),
    };
    let join_type = join_type(item.kind, query);
    OperatorData::Join(Join { join_type, on, outer, inner })
}

fn join_type(kind: u32, query: &mut QueryContext) -> JoinType {
    match kind {
        0 => JoinType::Inner,
        1 => JoinType::LeftSemi,
        2 => JoinType::LeftAnti,
        3 => JoinType::LeftOuter,
        4 => JoinType::RightOuter,
        5 => JoinType::FullOuter,
        6 => JoinType::Single,
        7 => {
            let marker = ColumnData { name: "marker".to_string() }.add(query);
            JoinType::LeftMark { marker, nullable: true }
        }
        _ => unreachable!("the sheet check lets no other kind of join pass"),
    }
}

fn kind(operator: &OperatorData) -> u32 {
    match operator {
        OperatorData::Join(join) => match join.join_type {
            JoinType::Inner => 0,
            JoinType::LeftSemi => 1,
            JoinType::LeftAnti => 2,
            JoinType::LeftOuter => 3,
            JoinType::RightOuter => 4,
            JoinType::FullOuter => 5,
            JoinType::Single => 6,
            JoinType::LeftMark { .. } => 7,
        },
        OperatorData::CrossProduct(_) => CROSS_PRODUCT,
        _ => LEAF,
    }
}

/// All join types in document 01's order.
pub const TYPES: [HyperedgeJoinType; 8] = [
    HyperedgeJoinType::Inner,
    HyperedgeJoinType::LeftSemi,
    HyperedgeJoinType::LeftOuter,
    HyperedgeJoinType::LeftOuterNullRejectingLeft,
    HyperedgeJoinType::FullOuter,
    HyperedgeJoinType::FullOuterNullRejectingLeft,
    HyperedgeJoinType::FullOuterNullRejectingRight,
    HyperedgeJoinType::FullOuterNullRejectingBoth,
];

/// What was made, and what is needed to read it.
struct Reading<'a> {
    query: &'a QueryContext,
    graph: &'a QueryHypergraph,
    model: &'a MillModel,
    analyses: &'a AnalysisContext,
}

impl Reading<'_> {
    fn lists(&self, solved: Solved<f64>) -> Lists {
        let costed = &self.analyses.costed;
        let numbers: HashMap<Operator, u32> =
            (costed.iter().zip(0..)).map(|(note, number)| (note.operator, number)).collect();
        let plans = self.plans(&numbers);
        let memo = memo(&plans, &solved, &numbers);
        let chosen = solved.chosen.map_or(NONE, |root| numbers[&root]);
        Lists { edges: self.edges(), plans, memo, chosen }
    }

    fn edges(&self) -> Vec<Edge> {
        let number = |predicate: Option<Expr>| match predicate {
            Some(expr) => self.model.predicate(expr) as u32,
            None => NONE,
        };
        let join_type = |t| TYPES.iter().position(|other| *other == t).expect("all types") as u32;
        (self.graph.edges.iter())
            .map(|edge| Edge {
                left: edge.left,
                right: edge.right,
                predicate: number(edge.predicate),
                source: edge.source.index() as u32,
                join_type: join_type(edge.join_type),
            })
            .collect()
    }

    /// The operators in the order in which they were costed: leaves, then
    /// candidates (document 01: trials).
    fn plans(&self, numbers: &HashMap<Operator, u32>) -> Vec<Plan> {
        let mut plans: Vec<Plan> = Vec::new();
        for note in &self.analyses.costed {
            let data = note.operator.get(self.query);
            let number = plans.len();
            let (left, right, set, lead) = match data.inputs()[..] {
                [outer, inner] => {
                    let (left, right) = (numbers[&outer], numbers[&inner]);
                    let (a, b) = (plans[left as usize].set, plans[right as usize].set);
                    let lead = connecting_edges(a, b, self.graph)[0] as u32;
                    (left, right, a | b, lead)
                }
                _ => {
                    let leaf = self.graph.nodes[number].root;
                    assert_eq!(leaf, note.operator, "plan n is leaf n");
                    (number as u32, number as u32, 1 << number, NONE)
                }
            };
            let kind = kind(data);
            let rows = self.analyses.rows[&note.operator].to_bits();
            let cost = note.total.to_bits();
            plans.push(Plan { set, left, right, lead, kind, rows, cost });
        }
        plans
    }
}

/// The DP table in the order in which its sets first had a plan.
fn memo(plans: &[Plan], solved: &Solved<f64>, numbers: &HashMap<Operator, u32>) -> Vec<MemoEntry> {
    let mut kept = HashMap::new();
    for (set, root, cost) in &solved.kept {
        let plan = numbers[root];
        assert_eq!(plans[plan as usize].cost, cost.to_bits(), "the kept cost is the noted one");
        kept.insert(*set, plan);
    }
    let entry = |plan: &Plan| {
        let entry = kept.remove(&plan.set)?;
        Some(MemoEntry { set: plan.set, plan: entry })
    };
    let memo = plans.iter().filter_map(entry).collect();
    assert!(kept.is_empty(), "every set of the DP table has a plan");
    memo
}
