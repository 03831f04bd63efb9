//! The counts of requests.
use ioc_ledger::{Outcome, Tally};

static OTHERS: [Outcome; 4] = [
    Outcome::Disabled,
    Outcome::Active,
    Outcome::Active,
    Outcome::Reprocess,
];

static WANTED: Tally = Tally {
    begun: 5,
    processed: 1,
    disabled: 1,
    active: 2,
    reprocess: 1,
    started: 0,
    completed: 0,
};

#[test]
fn requests_and_completions(rt: HostRuntime) {
    let mut tally = Tally::default();
    tally.count(Outcome::Processed);
    assert!(rt; tally.begun == 1 && tally.processed == 1);
    for outcome in &OTHERS {
        tally.count(*outcome);
    }
    assert!(rt; tally == WANTED);
    // Asynchronous answers, and completions.
    let mut later = Tally::default();
    later.count_started(2);
    later.count_started(0);
    later.count_completion();
    assert!(rt; later.started == 2 && later.completed == 1);
    assert!(rt; later.begun == 0);
}
