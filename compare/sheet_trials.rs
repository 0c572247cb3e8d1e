//! Sheets for a program of the gate, with all that is printed of each: every answer, every rule of places, and answers that compete.

use crate::random::Random;
use crate::sheet::{self, HEAD, LONGEST, SHEET};
use crate::sheets::{table, written};
use crate::trials;
use crate::typed::padded;
use std::io::Write;

/// As many cells as always suffice.
const CELLS: usize = 16_384;

/// Sheets with an axis line that holds these lists.
fn with(lists: &str) -> String {
    format!("{HEAD}(axis {lists})\n")
}

/// Sheets of an order and a range with these axis lines.
fn of(order: &str, range: &str, axes: &[&str]) -> String {
    let lines: Vec<String> = axes.iter().map(|lists| format!("(axis {lists})\n")).collect();
    format!("(order {order})\n(range {range})\n{}", lines.concat())
}

/// Sheets that are printed, each for something of its own.
fn served_trials() -> Vec<String> {
    let rest = "(points 0 1) (start 0) (end 0)";
    vec![
        SHEET.into(),
        of("5", "0 2", &["(points 0 1 0) (start 0 0) (end 0 0)"]),
        of("7", "-1 1", &["(points 0 1) (start 0 0 0) (end 0 0 0)"]),
        of("7", "-5 -4", &["(points 3 -1 4 -1 5) (start 1 -2 3) (end -4 5 -6)"]),
        of(
            "5",
            "0 1",
            &["(points (again 3 0 100)) (start (again 2 7)) (end 1 (again 1 2))", "(points 1 (again 2 2 3) 9) (start 0 0) (end 0 0)"],
        ),
        of("3", "-1099511627776 1099511627776", &["(points 1099511627776 -1099511627776) (start -1099511627776) (end 1099511627776)"]),
        of("3", "0 1", &[rest; 8]),
        of("3", "0 1", &["(points 0 9) (start -3) (end 2)"; 7]),
        with("(points (again 1 (again 1 (again 1 (again 1 5 6))))) (start (again 1 0)) (end (again 1 (again 1 0)))"),
        with("(points (again 2 (again 2 (again 2 (again 2 5) 6) 7) 8)) (start 0) (end 0)"),
        with("(points (again 64 0) 1) (start 0) (end 0)"),
        with("(points (again 63 -1) (again 10 0)) (start 0) (end 0)"),
        // 257 points
        with("(points (again 64 0 1 2 3) 5) (start 0) (end 0)"),
        with("(points 5 (again 32 (again 2 1 2 3 4))) (start 0) (end 0)"),
    ]
}

/// Sheets that the build's questions refuse, alone and each with each.
fn question_trials() -> Vec<String> {
    let (good, short, empty) = ("(points 0 1) (start 0) (end 0)", "(points 0) (start 0) (end 0)", "(points 0) (start 0 0) (end 0)");
    let long_state = "(points 0 1) (start 0 0) (end 0)";
    let mut all = Vec::new();
    for order in ["4", "-3", "0", "1", "9", "-7", "4294967299", "1099511627776", "-1099511627776"] {
        all.push(of(order, "0 2", &[good]));
    }
    for range in ["2 2", "2 0", "0 -1", "-1 -1", "1099511627776 -1099511627776"] {
        all.push(of("3", range, &[good]));
    }
    all.extend([
        of("3", "0 2", &[short]),
        of("3", "0 2", &[short; 8]),
        of("3", "0 2", &[long_state]),
        of("3", "0 2", &[good, "(points 0 1) (start 0) (end 0 0 0)"]),
        of("5", "0 2", &[good]),
        of("7", "0 2", &["(points 0 1) (start 0 0 0) (end 0 0)"]),
        // as many numbers in all as they should be
        of("5", "0 2", &["(points 0 1) (start 0) (end 0 0)", "(points 0 1) (start 0 0 0) (end 0 0)"]),
        of("5", "0 2", &["(points 0 1) (start 0) (end 0 0 0)"]),
        of("5", "0 2", &["(points 0 1) (start 0 0) (end 0 0 0)", "(points 0 1) (start 0 0) (end 0)"]),
        // two questions at once
        of("4", "0 2", &[short]),
        of("4", "0 2", &[long_state]),
        of("4", "2 0", &[good]),
        of("3", "0 2", &[empty]),
        of("3", "2 0", &[short]),
        of("3", "2 0", &[long_state]),
        of("-4", "2 0", &[empty]),
    ]);
    all
}

/// 2 and 3, alone, with each other, and with what comes before and after them.
fn count_trials() -> Vec<String> {
    let good = "(points 0 1) (start 0) (end 0)";
    let four = "(points 0 1) (start 0 0 0 0) (end 0)";
    let many = "(points (again 64 0 1 2 3 4) 5) (start 0) (end 0)";
    vec![
        with(four),
        with("(points 0 1) (start 0) (end 1 2 3 4 5)"),
        with("(points 0 1) (start 1 (again 2 (again 2 3))) (end 0)"),
        with("(points 0 1) (start (again 3 0) 0) (end 0)"),
        with("(points 0 1) (start (again 4 0)) (end 0)"),
        with(many),
        with("(points (again 64 0 1 2 3) 5 6) (start 0) (end 0)"),
        with("(points 5 (again 64 0 1 2 3) 6 7) (start 0) (end 0)"),
        with("(points 0 1 (again 32 (again 2 1 2 3 4))) (start 0) (end 0)"),
        with("(points 0 (again 5 (again 60 1 2))) (start 0) (end 0)"),
        with("(points (again 64 (again 64 (again 64 (again 64 1))))) (start 0) (end 0)"),
        of("3", "0 2", &[good, "(points 0 1 2) (start 0) (end 0)"]),
        of("3", "0 2", &[good, "(points (again 2 0 1)) (start 0) (end 0)"]),
        of("3", "0 2", &[good, good, "(points 0) (start 0) (end 0)"]),
        // 3 and then 304
        of("3", "0 2", &["(points 0) (start 0) (end 0)", good]),
        // 2 and then 3, 3 and then 2
        of("3", "0 2", &[four, "(points 0 1 2) (start 0) (end 0)"]),
        of("3", "0 2", &[good, "(points 0 1 2) (start 0 0 0 0) (end 0)"]),
        of("3", "0 2", &[good, many]),
        of("3", "0 2", &[many, good]),
        of("3", "0 2", &[good, "(points 0 1 2) (start 0) (end 0)", four]),
        // questions behind them
        of("4", "2 0", &[four]),
        of("4", "2 0", &[good, "(points 0 1 2) (start 0) (end 0)"]),
        // 600, 601 and 4 behind them
        with(four) + "x",
        with(many) + &with(many),
        with("(points 0 1) (start 0 0 0 0) (end 0 (again 1 (again 1 (again 1 (again 1 (again 1 0))))))"),
        with("(points 0 1) (start 0 0 0 0) (end -1099511627777)"),
        of("3", "0 2", &[good, "(points 0 1 2) (start 0) (end 00)"]),
        of("3", "0 2", &[good, "(points 0 1 2) (start 0) (end 1099511627777)"]),
        with(many).trim_end().into(),
    ]
}

/// 600, 601 and 4: each rule of places, and each with each.
fn grammar_trials() -> Vec<String> {
    let points = |points: &str| format!("{HEAD}(axis (points {points}");
    let good = "(points 0 1) (start 0) (end 0)";
    let (open, deep) = ("(again 1 ".repeat(4), "(again 1 ".repeat(5));
    let mut all = vec![
        of("3", "0 2", &[good; 9]),
        of("3", "0 2", &[good; 8]) + "\n",
        of("3", "0 2", &[good; 8]) + "(",
        with(good) + "(axis",
        with(good) + "(axis (points 0 1) (start 0) (end 0)",
        with(good).trim_end().into(),
        with("(points 0 1) (start 0) (end )"),
        with("(points 0 1) (start) (end 0)"),
        with("(points 0 1) (end 0) (start 0)"),
        with("(points 0  1) (start 0) (end 0)"),
        with("(points 0 1 ) (start 0) (end 0)"),
        with("(points 0 1) (start 0) (end 0) "),
        with("(points 0 1)(start 0) (end 0)"),
        with("(points 0 -0) (start 0) (end 0)"),
        with("(points 0 00) (start 0) (end 0)"),
        with("(points 0 --1) (start 0) (end 0)"),
        with("(points 0 1) (start 0) (end (again 2 0)"),
        with("(points 0 (points 1)) (start 0) (end 0)"),
        with("(points (again 3 ) 1) (start 0) (end 0)"),
        with("(points (again 3 1)1) (start 0) (end 0)"),
        with("(points (again 2 1)(again 2 1)) (start 0) (end 0)"),
        with("(points 0 (again 7 1) (again 70 1)) (start 0) (end 0)"),
        "(range 0 2)\n(order 3)\n".into(),
        "(order 3)\n(range 0 2)\n(range 0 2)\n".into(),
        "(order 3)\n(range 0)\n".into(),
        "(order 3)\n(range 0 2 4)\n".into(),
        "(order 3 5)\n".into(),
        "(order 3) \n".into(),
        " (order 3)\n".into(),
        "\n(order 3)\n".into(),
        "\0".into(),
        "order 3".into(),
        // 601 and then 600, 600 and then 601
        points(&format!("{deep}x")),
        points(&format!("0x {deep}0")),
        points(&format!("{open}(")),
        points(&format!("{open}0(")),
        points(&format!("{open}0) (again 1 (again 1 0")),
        points(&format!("{open}0)))) {deep}")),
        // 4 and then 600, 600 and then 4
        points("1099511627777x"),
        points("0x 1099511627777"),
        points("-1099511627777-"),
        points("01099511627777"),
        points("-01099511627777"),
        points("(again 65 1099511627777"),
        points("(again 1099511627777"),
        // 601 and then 4, 4 and then 601
        points(&format!("{deep}1099511627777")),
        points(&format!("1099511627777 {deep}")),
        points(&format!("{open}1099511627777 (again 1 0")),
        // two of a kind
        points(&format!("-1099511627777 1099511627777 {deep}")),
        points(&format!("{deep}{deep}")),
    ];
    for beyond in ["1099511627777", "-1099511627777", "9999999999999", "18446744073709551619", "-18446744073709551616"] {
        all.push(with(&format!("(points 0 {beyond}) (start 0) (end 0)")));
    }
    all.extend([
        of("1099511627777", "0 2", &[good]),
        of("3", "-1099511627777 2", &[good]),
        of("3", "0 1099511627777", &[good]),
        with("(points 0 1) (start -1099511627777) (end 0)"),
        with("(points 0 1) (start 0) (end (again 2 1099511627777))"),
    ]);
    all
}

/// The build of a sheet into so many cells: number and place, and the table.
fn build(text: &[u8], cells: usize) {
    let ((number, at), sheet) = sheet::judged(text, cells);
    let built = sheet.filter(|_| number == 0).map_or(Vec::new(), |sheet| table(&sheet).0);
    trials::whole("cells", cells);
    trials::whole("= number", number as usize);
    trials::whole("= at", at);
    trials::whole("= cells", built.len());
    trials::floats(&built, 4);
}

/// How many bytes, and then these.
fn bytes(what: &str, list: &[u8]) {
    trials::whole(what, list.len());
    std::io::stdout().write_all(list).expect("it can be written");
}

/// A sheet with all that is printed of it, number and place, and two builds: into a buffer that always suffices, and into one that
/// lacks a cell.
fn print_trial(name: &str, text: &[u8]) {
    let (number, at) = sheet::judge(text);
    let cells = sheet::judged(text, usize::MAX).1.map_or(0, |sheet| sheet.cells());
    let less = usize::try_from(cells - 1).map_or(0, |less| less.min(CELLS));
    trials::name(name);
    bytes("sheet", text);
    bytes("= output", &written(text));
    trials::whole("= number", number as usize);
    trials::whole("= at", at);
    build(text, CELLS);
    build(text, less);
}

/// Prints them.
pub fn print() {
    let mut random = Random(0x59f1_11f1_b605_d019);
    let lists =
        [("served", served_trials()), ("questions", question_trials()), ("2 and 3", count_trials()), ("600, 601 and 4", grammar_trials())];
    let mut all: Vec<(&str, Vec<u8>)> = Vec::new();
    for (what, list) in lists {
        all.extend(list.into_iter().map(|text| (what, text.into_bytes())));
    }
    let examples = || sheet::examples().into_iter().map(|(text, _, _)| text);
    all.extend(examples().filter(|text| text.len() < 1000).map(|text| ("document 03", text)));
    // the longest sheet, one more byte, and more points than 32 bits count
    let longest = padded(&mut random, LONGEST, 8, 76, 100);
    all.push(("32,768 bytes", longest.clone()));
    all.push(("32,769 bytes", [&longest[..], b"("].concat()));
    all.extend(
        examples()
            .find(|text| text.starts_with(b"(order 3)\n(range 0 2)\n(axis (points (again 64 (again 64"))
            .map(|text| ("many points", text)),
    );
    let mut seen = std::collections::HashSet::new();
    all.retain(|(_, text)| seen.insert(text.clone()));
    trials::remark("From here on printed by compare/run SPLINE_RS sheets trials: the");
    trials::remark("answers are a second reader's and the Rust's.");
    for (i, (what, text)) in all.iter().enumerate() {
        print_trial(&format!("{i}: {what}"), text);
    }
}
