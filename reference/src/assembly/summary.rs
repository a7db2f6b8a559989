//! What was compared, in some lines.

use super::inputs::{ODD_LINE, SPELLED};
use super::written::TOO_LARGE;
use super::{DONE, GIVEN, SIZE, TOLD_BY_ASSEMBLE, TOLD_BY_LIST, UNDONE};
use crate::code::Code;
use crate::tally::Tally;
use crate::trials::Summary;

pub fn in_short(summary: &Summary) -> String {
    let tally = summary.tally();
    let kinds = summary.spread();
    let (bytes_in, bytes_out) = summary.bytes();
    let words = tally.spread_of_forms(Code::Done);
    let of = |group| tally.spread(group);
    let (spelled, odd, sizes) = (of(SPELLED), of(ODD_LINE), of(SIZE));
    [
        format!(
            "{} trials: {} kinds, {}",
            kinds.all,
            kinds.names,
            kinds.least()
        ),
        told(&tally, "list", TOLD_BY_LIST),
        told(&tally, "assemble", TOLD_BY_ASSEMBLE),
        format!(
            "{} words listed and assembled, in {} sessions: {} forms, {}",
            words.all,
            of(UNDONE).all,
            words.names,
            words.least_and_most()
        ),
        format!(
            "{} files with another spelling: {} spellings, each at least {} times",
            spelled.all,
            spelled.names,
            spelled.least_count()
        ),
        format!(
            "{} files with an odd line: {} lines, each at least {} times",
            odd.all,
            odd.names,
            odd.least_count()
        ),
        format!(
            "{} inputs of the most bytes or one more: {} kinds, {}",
            sizes.all,
            sizes.names,
            sizes.least()
        ),
        format!(
            "assembly: {} inputs of {bytes_in} bytes, all {bytes_out} bytes written for them equal",
            of(GIVEN).all
        ),
    ]
    .join("\n")
}

/// How the inputs of a program are answered.
fn told(tally: &Tally, program: &str, group: &str) -> String {
    let refused = tally.spread_where(group, |name| name != DONE);
    format!(
        "{program}: {} inputs done, {} refused, {} of them too large: {} kinds of refusal, {}",
        tally.cases(group, DONE),
        refused.all,
        tally.cases(group, TOO_LARGE),
        refused.names,
        refused.least()
    )
}

#[cfg(test)]
mod tests {
    use super::*;
    use crate::assembly::{jobs, minima, Case};

    /// All that is tried, as if both programs were right.
    #[test]
    fn nothing_is_wanting_and_the_summary_is_short() {
        let mut summary = Summary::of::<Case>();
        for job in jobs(1) {
            summary.count(job.kind, &job.made(1));
        }
        assert_eq!(minima::wanting(&summary, 1), Vec::<String>::new());
        let text = in_short(&summary);
        assert_eq!(text.lines().count(), 8);
        // Counts of more digits must have a place too.
        assert!(text.lines().all(|line| line.len() < 160), "{text}");
    }
}
