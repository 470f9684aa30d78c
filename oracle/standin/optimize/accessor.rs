
// Appended by the oracle's build: reaches the private `DPhyp`. The published
// text ends above.

/// What the search leaves behind.
pub struct Solved<C> {
    /// The plan that `solve` returns.
    pub chosen: Option<Operator>,
    /// The DP table: set, kept plan, its cost; in no order.
    pub kept: Vec<(NodeSet, Operator, C)>,
}

/// Runs `DPhyp::solve` and hands out the DP table with the result.
pub fn solve_hypergraph<M: CostModel>(
    ctx: &mut QueryContext,
    analyses: &mut AnalysisContext,
    hg: &QueryHypergraph,
    cost_model: &M,
) -> OptimizeResult<Solved<M::Cost>> {
    let mut search = DPhyp::new(ctx, analyses, hg, cost_model);
    let chosen = search.solve()?.map(|plan| plan.root);
    let kept = search
        .dp
        .into_iter()
        .map(|(set, plan)| (set, plan.root, plan.cost))
        .collect();
    Ok(Solved { chosen, kept })
}

/// What is counted of the search.
pub struct Counted {
    /// The plan that `solve` returns.
    pub chosen: Option<Operator>,
    /// Entries of the DP table.
    pub kept: usize,
}

/// Runs `DPhyp::solve` and counts the DP table.
pub fn solve_counted<M: CostModel>(
    ctx: &mut QueryContext,
    analyses: &mut AnalysisContext,
    hg: &QueryHypergraph,
    cost_model: &M,
) -> OptimizeResult<Counted> {
    let mut search = DPhyp::new(ctx, analyses, hg, cost_model);
    let chosen = search.solve()?.map(|plan| plan.root);
    Ok(Counted { chosen, kept: search.dp.len() })
}
