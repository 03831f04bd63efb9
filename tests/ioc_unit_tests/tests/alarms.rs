//! Alarms that are raised, settled and inherited, and alarms of limits.
use ioc_alarms::*;
use ioc_links::Mode;
use ioc_menus::{Severity, Status};
use ioc_values::Double;
use std::process::Abort;

const QUIET: Alarms = Alarms {
    status: Status::NoAlarm,
    severity: Severity::NoAlarm,
    new_status: Status::NoAlarm,
    new_severity: Severity::NoAlarm,
};

fn alarms(new_status: Status, new_severity: Severity) -> Alarms {
    Alarms {
        status: Status::NoAlarm,
        severity: Severity::NoAlarm,
        new_status,
        new_severity,
    }
}

static SETTLED: Alarms = Alarms {
    status: Status::Soft,
    severity: Severity::Minor,
    new_status: Status::NoAlarm,
    new_severity: Severity::NoAlarm,
};

#[test]
fn raised_where_graver(rt: HostRuntime) {
    let mut a = QUIET;
    a.raise(Status::Soft, Severity::Minor);
    let first = a;
    a.raise(Status::Calc, Severity::Minor);
    let wanted = alarms(Status::Soft, Severity::Minor);
    let is_graver = [
        a.takes_effect(Severity::Major),
        a.takes_effect(Severity::Minor),
    ];
    assert!(rt; [first, a] == [wanted; 2]);
    assert!(rt; is_graver == [true, false]);
    a.settle();
    assert!(rt; a == SETTLED);
}

const NO_ALARM: (Status, Severity) = (Status::NoAlarm, Severity::NoAlarm);

// A mode and the severity of a record in the alarm HIGH, with the alarm that a record without alarm
// inherits.
static INHERITED: [(Mode, Severity, (Status, Severity)); 16] = [
    (Mode::Nms, Severity::NoAlarm, NO_ALARM),
    (Mode::Nms, Severity::Minor, NO_ALARM),
    (Mode::Nms, Severity::Major, NO_ALARM),
    (Mode::Nms, Severity::Invalid, NO_ALARM),
    (Mode::Ms, Severity::NoAlarm, NO_ALARM),
    (Mode::Ms, Severity::Minor, (Status::Link, Severity::Minor)),
    (Mode::Ms, Severity::Major, (Status::Link, Severity::Major)),
    (
        Mode::Ms,
        Severity::Invalid,
        (Status::Link, Severity::Invalid),
    ),
    (Mode::Msi, Severity::NoAlarm, NO_ALARM),
    (Mode::Msi, Severity::Minor, NO_ALARM),
    (Mode::Msi, Severity::Major, NO_ALARM),
    (
        Mode::Msi,
        Severity::Invalid,
        (Status::Link, Severity::Invalid),
    ),
    (Mode::Mss, Severity::NoAlarm, NO_ALARM),
    (Mode::Mss, Severity::Minor, (Status::High, Severity::Minor)),
    (Mode::Mss, Severity::Major, (Status::High, Severity::Major)),
    (
        Mode::Mss,
        Severity::Invalid,
        (Status::High, Severity::Invalid),
    ),
];

#[test]
fn inherited_by_mode(rt: HostRuntime) {
    for (mode, severity, (new_status, new_severity)) in &INHERITED {
        let mut a = QUIET;
        a.inherit(*mode, Status::High, *severity);
        assert!(rt; a == alarms(*new_status, *new_severity));
    }
}

// A value and LALM before it, with the status that it raises and LALM after it.
type Reached = (i64, i64, Status, i64);

// Asserts that each value raises the expected status in a record without alarm.
fn are_reached(rt: &impl Abort, limits: &AlarmLimits<i64>, table: &[Reached]) {
    for (value, last, status, wanted) in table {
        let mut a = QUIET;
        let found = a.limits(*value, *last, limits);
        assert!(rt; a.new_status == *status && found == *wanted, "at {value}");
    }
}

// Returns limits of which only HIGH is tested, with the severity MINOR.
fn only_high(high: i64, hysteresis: i64) -> AlarmLimits<i64> {
    AlarmLimits {
        hihi: 0,
        lolo: 0,
        high,
        low: 0,
        hihi_severity: Severity::NoAlarm,
        lolo_severity: Severity::NoAlarm,
        high_severity: Severity::Minor,
        low_severity: Severity::NoAlarm,
        hysteresis,
    }
}

// The alarm HIGH ends when the value is below the hysteresis.
static BELOW: [Reached; 3] = [
    (10, 0, Status::High, 10),
    (9, 10, Status::High, 10),
    (7, 10, Status::NoAlarm, 7),
];

// The sums of hysteresis don't wrap.
static FAR_BELOW: [Reached; 2] = [
    (-2_000_000_000, 0, Status::High, -2_000_000_000),
    (-2_147_483_648, -2_000_000_000, Status::High, -2_000_000_000),
];

static LEAST: [Reached; 1] = [(i64::MIN, i64::MIN, Status::High, i64::MIN)];

static FOUR_LIMITS: AlarmLimits<i64> = AlarmLimits {
    hihi: 20,
    lolo: -20,
    high: 10,
    low: -10,
    hihi_severity: Severity::Major,
    lolo_severity: Severity::Major,
    high_severity: Severity::Minor,
    low_severity: Severity::Minor,
    hysteresis: 0,
};

// Of the limits that are reached, the first raises its alarm.
static FIRST_REACHED: [Reached; 6] = [
    (25, 0, Status::Hihi, 20),
    (20, 0, Status::Hihi, 20),
    (15, 0, Status::High, 10),
    (0, 0, Status::NoAlarm, 0),
    (-10, 0, Status::Low, -10),
    (-20, 0, Status::Lolo, -20),
];

#[test]
fn limits_raised(rt: HostRuntime) {
    are_reached(&rt, &only_high(10, 2), &BELOW);
    are_reached(&rt, &only_high(-2_000_000_000, 2_000_000_000), &FAR_BELOW);
    are_reached(&rt, &only_high(i64::MIN, i64::MAX), &LEAST);
    are_reached(&rt, &FOUR_LIMITS, &FIRST_REACHED);
}

#[test]
fn graver_alarm_stays(rt: HostRuntime) {
    let mut graver = alarms(Status::Read, Severity::Invalid);
    assert!(rt; graver.limits(25, 3, &FOUR_LIMITS) == 3);
    assert!(rt; graver == alarms(Status::Read, Severity::Invalid));
    assert!(rt; FOUR_LIMITS.first_reached(0, 0).is_none());
}

// Returns limits of doubles of which only HIGH is tested, with the severity MINOR.
fn high_of(high: f64, hysteresis: f64) -> AlarmLimits<Double> {
    AlarmLimits {
        hihi: Double::new(0.0),
        lolo: Double::new(0.0),
        high: Double::new(high),
        low: Double::new(0.0),
        hihi_severity: Severity::NoAlarm,
        lolo_severity: Severity::NoAlarm,
        high_severity: Severity::Minor,
        low_severity: Severity::NoAlarm,
        hysteresis: Double::new(hysteresis),
    }
}

// A limit with its hysteresis, a value and LALM before it, and whether HIGH is raised.
static DOUBLES: [(f64, f64, f64, f64, bool); 9] = [
    (0.3, 0.1, 0.3, 0.0, true),
    (0.3, 0.1, 0.19999999999999998, 0.3, true),
    (0.3, 0.1, 0.19999999999999996, 0.3, false),
    (0.3, 0.1, 0.25, 0.0, false),
    (f64::NAN, 0.0, 1.0, 0.0, false),
    (1.0, 0.0, f64::NAN, 1.0, false),
    (1.0, f64::NAN, 0.9, 1.0, false),
    (f64::INFINITY, 0.0, f64::MAX, 0.0, false),
    (0.0, 1.0, -0.5, -0.0, true),
];

#[test]
fn limits_of_doubles(rt: HostRuntime) {
    for (high, hysteresis, value, last, wanted) in &DOUBLES {
        let mut a = QUIET;
        let _ = a.limits(
            Double::new(*value),
            Double::new(*last),
            &high_of(*high, *hysteresis),
        );
        assert!(rt; (a.new_status == Status::High) == *wanted);
    }
}
