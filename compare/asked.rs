//! What document 01's questions share, as plain tests.

/// "The first no gives its number", and 0 where there is none.
pub fn first_no(questions: &[(bool, u32)]) -> u32 {
    questions.iter().find(|question| !question.0).map_or(0, |question| question.1)
}

pub fn is_order(order: usize) -> bool {
    [3, 5, 7].contains(&order)
}

/// How many coefficients a curve has, where that is a number.
pub fn table_length(axes: usize, segments: usize, order: usize) -> Option<usize> {
    axes.checked_mul(segments)?.checked_mul(order.checked_add(1)?)
}
