//! Stand-in for p3-interpolation, from the mathematics: for a coset sH of size N and x off it,
//! f(x) = (x^N - s^N) / (N s^N) * sum_i  h_i / (x - h_i) * f(h_i),   h_i in sH.
use p3_field::{ExtensionField, TwoAdicField};
use p3_matrix::Matrix;

pub fn interpolate_coset_with_precomputation<F, EF, Mat>(
    coset_evals: &Mat,
    shift: F,
    point: EF,
    coset: &[F],
    diff_invs: &[EF],
) -> Vec<EF>
where
    F: TwoAdicField,
    EF: ExtensionField<F>,
    Mat: Matrix<F>,
{
    let n = coset_evals.height();
    let log_n = n.trailing_zeros() as usize;
    assert!(n.is_power_of_two() && coset.len() == n && diff_invs.len() == n);
    let s_n = shift.exp_power_of_2(log_n);
    let front =
        (point.exp_power_of_2(log_n) - s_n) * (s_n.inverse() * F::ONE.div_2exp_u64(log_n as u64));
    let mut sums = vec![EF::ZERO; coset_evals.width()];
    for i in 0..n {
        let w = diff_invs[i] * coset[i];
        for (j, s) in sums.iter_mut().enumerate() {
            *s += w * coset_evals.at(i, j);
        }
    }
    sums.into_iter().map(|s| s * front).collect()
}
