// What the ratios of the benchmark may be at most, and how a run kept to it.

pub const MEMCMP: &str = "memcmp_of_the_store";
pub const SOUNDNESS: &str = "soundness";
pub const WITHOUT_HUB: &str = "without_the_hub";

/// What each of these may be at most, against what: the limits of docs/PERFORMANCE.md.
pub const LIMITS: [(&str, &str, f64); 24] = [
    ("soundness_entries_1024", MEMCMP, 4.5),
    ("soundness_merges_1024", MEMCMP, 13.0),
    ("soundness_hub_1024", WITHOUT_HUB, 1.05),
    ("entry", SOUNDNESS, 1.3),
    ("merge", SOUNDNESS, 1.3),
    ("leave", SOUNDNESS, 1.3),
    ("hub", SOUNDNESS, 1.3),
    ("pause_entries_1023", SOUNDNESS, 1.3),
    ("pause_merges_1023", SOUNDNESS, 1.3),
    ("resume_entries_1023", SOUNDNESS, 3.0),
    ("resume_merges_1023", SOUNDNESS, 3.0),
    ("origin_entries_1024", SOUNDNESS, 1.2),
    ("origin_merges_1024", SOUNDNESS, 1.2),
    ("origin_chain_of_entries_1024", SOUNDNESS, 1.2),
    ("origin_chain_of_merges_1024", SOUNDNESS, 1.2),
    ("mergeable_entries_1024", SOUNDNESS, 1.2),
    ("mergeable_merges_1024", SOUNDNESS, 1.2),
    ("mergeable_all_agree_1024", SOUNDNESS, 1.2),
    ("mergeable_stuck_1024", SOUNDNESS, 1.2),
    ("mergeable_stuck_apart_1024", SOUNDNESS, 1.2),
    ("view_live", SOUNDNESS, 1.2),
    ("view_frozen", SOUNDNESS, 1.2),
    ("student_pane", SOUNDNESS, 1.2),
    ("instructor_pane", SOUNDNESS, 1.2),
];

/// A ratio fails at more than so many times its limit; less may be noise.
const FAILS_AT: f64 = 1.5;

pub fn limit_of(what: &str, against: &str) -> Option<f64> {
    let named = |limit: &&(&str, &str, f64)| (limit.0, limit.1) == (what, against);
    LIMITS.iter().find(named).map(|&(_, _, limit)| limit)
}

/// How the ratios of a run kept to their limits.
#[derive(Default)]
pub struct Report {
    met: usize,
    missed: Vec<String>,
    failed: Vec<String>,
}

impl Report {
    /// Takes note of a ratio, and gives the line of its limit where it has one.
    pub fn judge(&mut self, what: &str, against: &str, value: f64) -> Option<String> {
        let limit = limit_of(what, against)?;
        let told = format!("{what} {against} {value:.2} (limit {limit:.2})");
        if value > FAILS_AT * limit {
            self.failed.push(told.clone());
        }
        let mark = if value > limit {
            self.missed.push(told);
            " EXCEEDED"
        } else {
            self.met += 1;
            ""
        };
        Some(format!("limit {what} {against} {limit:.2}{mark}"))
    }

    /// How many limits were met, and those that were not.
    pub fn summary(&self) -> String {
        let judged = self.met + self.missed.len();
        assert_eq!(judged, LIMITS.len(), "each limit is that of a ratio");
        if self.missed.is_empty() {
            return format!("all {judged} limits met");
        }
        let missed = self.missed.join(", ");
        format!("{} of {judged} limits met; missed: {missed}", self.met)
    }

    /// The ratios that are so far above their limits that the run has failed.
    pub fn failed(&self) -> &[String] {
        &self.failed
    }
}
