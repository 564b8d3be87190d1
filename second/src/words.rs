//! House matter: the causes in words, from the one table that has them, causes.tsv. They need no place.

const TABLE: &str = include_str!("../../causes.tsv");

/// House matter: the words of a row.
fn row(cause: &str, call: &str) -> Option<&'static str> {
    TABLE.lines().skip(1).find_map(|line| {
        let fields: Vec<&str> = line.split('\t').collect();
        (fields[0] == cause && fields[1] == call).then_some(fields[3])
    })
}

/// House matter: the words of a cause: those for C, or else those for any call.
pub fn of_cause(number: u32) -> &'static str {
    let cause = number.to_string();
    row(&cause, "c")
        .or_else(|| row(&cause, "any"))
        .unwrap_or("no such cause")
}
