//! What stands on a sheet, for the words of a refusal. The library has been through the text and found no byte of it at fault,
//! so nothing is asked of it again, and nothing is allocated.

/// A list of an axis.
pub(crate) struct List {
    /// `points`, `start` or `end`.
    pub what: &'static str,
    /// The place of its closing bracket.
    pub bracket: usize,
    /// How many numbers it stands for.
    pub count: usize,
}

/// The text of a sheet.
pub(crate) struct Sheet<'a>(pub &'a [u8]);

impl<'a> Sheet<'a> {
    /// Order, s_min and s_max: the first three numbers.
    pub fn heading(&self) -> (i64, f64, f64) {
        let mut numbers = self.0.split(|byte| b" ()\n".contains(byte)).filter_map(number);
        let mut next = || numbers.next().expect("a sheet starts with three numbers");
        (next(), next() as f64, next() as f64)
    }

    /// The order that the library builds with.
    pub fn order(&self) -> usize {
        usize::try_from(self.heading().0).unwrap_or(0)
    }

    pub fn axes(&self) -> usize {
        self.lists().count() / 3
    }

    /// How many the first axis has.
    pub fn points(&self) -> usize {
        self.lists().next().expect("a sheet has an axis").count
    }

    /// The list that a fault's place lies in; none where it is the sheet's length.
    pub fn list_at(&self, at: usize) -> Option<List> {
        self.lists().find(|list| at <= list.bracket)
    }

    /// Three for each axis, in the order of the text.
    fn lists(&self) -> impl Iterator<Item = List> + 'a {
        let text = self.0;
        (0..text.len()).filter_map(move |at| list(text, at))
    }
}

fn number(word: &[u8]) -> Option<i64> {
    std::str::from_utf8(word).ok()?.parse().ok()
}

/// The list that starts at a place, with its opening bracket and its name.
fn list(text: &[u8], at: usize) -> Option<List> {
    let inside = text[at..].strip_prefix(b"(")?;
    let what = ["points", "start", "end"].into_iter().find(|what| inside.starts_with(what.as_bytes()))?;
    let (count, bracket) = items(text, at + what.len() + 2);
    Some(List { what, bracket, count })
}

/// How many numbers some items stand for, and the place of the bracket after them.
fn items(text: &[u8], at: usize) -> (usize, usize) {
    let (mut count, mut after) = item(text, at);
    while text[after] == b' ' {
        let (more, next) = item(text, after + 1);
        (count, after) = (count + more, next);
    }
    (count, after)
}

/// The same of one item, and the place after it. An `again` form stands for its items as often as its count says.
fn item(text: &[u8], at: usize) -> (usize, usize) {
    if text[at] != b'(' {
        return (1, word_end(text, at));
    }
    let count = at + "(again ".len();
    let space = word_end(text, count);
    let times = number(&text[count..space]).expect("an again form has a count");
    let (inside, bracket) = items(text, space + 1);
    (times as usize * inside, bracket + 1)
}

fn word_end(text: &[u8], at: usize) -> usize {
    at + text[at..].iter().position(|byte| b" )".contains(byte)).expect("a list has a closing bracket")
}
