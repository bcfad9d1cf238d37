// The greatest total of a run of neighbours, by one pass.
fn best_run(xs: &[i64]) -> Option<i128> {
    let (mut best, mut suffix) = (None, 0i128);
    for x in xs {
        suffix = (suffix + i128::from(*x)).max(i128::from(*x));
        best = best.max(Some(suffix));
    }
    best
}
