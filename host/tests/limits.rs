// The benchmark's limits: which ratios meet theirs, miss it, and fail.

use room_host::limits::{Report, LIMITS, SOUNDNESS};

/// A report of ratios that are all so many times their limits, but for one.
fn report_with(times: f64, exception: &str, value: f64) -> Report {
    let mut report = Report::default();
    for (what, against, limit) in LIMITS {
        let other = if what == exception {
            value
        } else {
            times * limit
        };
        report.judge(what, against, other);
    }
    report
}

#[test]
fn all_limits_met() {
    let report = report_with(1.0, "", 0.0);
    assert_eq!(report.summary(), "all 24 limits met");
    assert!(report.failed().is_empty());
}

/// The limit of an entry is 1.3 of soundness: it fails above 1.95.
#[test]
fn a_limit_missed_and_one_failed() {
    let missed = "23 of 24 limits met; missed: entry soundness 1.94 (limit 1.30)";
    let report = report_with(0.5, "entry", 1.94);
    assert_eq!(report.summary(), missed);
    assert!(report.failed().is_empty());
    let report = report_with(0.5, "entry", 1.96);
    assert_eq!(report.failed(), ["entry soundness 1.96 (limit 1.30)"]);
}

#[test]
fn all_limits_missed() {
    let report = report_with(1.6, "", 0.0);
    assert!(report.summary().starts_with("0 of 24 limits met; missed: "));
    assert_eq!(report.failed().len(), 24);
}

#[test]
fn the_lines_of_limits() {
    let mut report = Report::default();
    let mut line = |value: f64| report.judge("entry", SOUNDNESS, value);
    assert_eq!(line(1.3).as_deref(), Some("limit entry soundness 1.30"));
    let exceeded = "limit entry soundness 1.30 EXCEEDED";
    assert_eq!(line(1.31).as_deref(), Some(exceeded));
    assert_eq!(report.judge("entry", "fast", 9.0), None);
}
