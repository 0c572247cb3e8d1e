//! Trials: calls with their expected answers, as the programs of the gate read them (crates/test_common/src/read.rt), in pieces
//! of fixed width.

/// A call's name: 67 characters.
pub fn name(text: &str) {
    assert!(text.len() < 66, "too long for a name: {text}");
    println!("{:-<67}", format!("{text} "));
}

/// What a reader may want to know: 67 characters.
pub fn remark(text: &str) {
    assert!(text.len() < 65, "too long for a remark: {text}");
    println!("# {text:<64}#");
}

/// A field with a whole number: 33 characters.
pub fn whole(what: &str, n: usize) {
    assert!(what.len() < 14, "too long for a field: {what}");
    println!("{what:<13}{n:>20}");
}

/// A field with a float: 33 characters.
pub fn float(what: &str, x: f64) {
    assert!(what.len() < 14, "too long for a field: {what}");
    println!("{what:<13}    {}", bits(x));
}

/// The bits of a float: 16 characters. All NaNs are one.
pub fn bits(x: f64) -> String {
    format!("{:016x}", if x.is_nan() { f64::NAN.to_bits() } else { x.to_bits() })
}

/// A list of floats, so many on a line.
pub fn floats(list: &[f64], on_a_line: usize) {
    for line in list.chunks(on_a_line.max(1)) {
        println!("{}", line.iter().map(|&x| bits(x)).collect::<Vec<_>>().join(" "));
    }
}

/// A list of integers, of 20 characters each, so many on a line.
pub fn integers(list: &[i64], on_a_line: usize) {
    for line in list.chunks(on_a_line.max(1)) {
        println!("{}", line.iter().map(|z| format!("{z:>20}")).collect::<Vec<_>>().join(" "));
    }
}
