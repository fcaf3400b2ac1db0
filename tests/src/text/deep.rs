//! Operands of any depth, as printing writes them.

/// Brackets in left operands: the next value is held before the last one was used up.
pub fn left(levels: usize) -> String {
    format!("{}r0{}", "(".repeat(levels), " add 1)".repeat(levels))
}

/// Brackets in right operands: all values are held before the first operator.
pub fn right(levels: usize) -> String {
    format!("{}r0{}", "(r1 xor ".repeat(levels), ")".repeat(levels))
}

/// Signs in turn, then a register: one token more than signs.
pub fn signs(count: usize) -> String {
    let signs: String = (0..count).map(|at| if at % 2 == 0 { "neg " } else { "not " }).collect();
    signs + "r0"
}

/// An operand of so many tokens.
pub fn of_tokens(count: usize) -> String {
    let sign = if count.is_multiple_of(2) { "neg " } else { "" };
    format!("{sign}{}", left((count - 1) / 2))
}
