//! The texts and numbers of choices.
use ioc_menus::*;

static TEXTS: [(Menu, u16, Option<&str>); 13] = [
    (Menu::Severity, 3, Some("INVALID")),
    (Menu::Severity, 4, None),
    (Menu::Status, 7, Some("STATE")),
    (Menu::Status, 21, Some("WRITE_ACCESS")),
    (Menu::Scan, 2, Some("I/O Intr")),
    (Menu::Scan, 9, Some(".1 second")),
    (Menu::Priority, 1, Some("MEDIUM")),
    (Menu::Pini, 0, Some("NO")),
    (Menu::Omsl, 1, Some("closed_loop")),
    (Menu::Ivoa, 1, Some("Don't drive outputs")),
    (Menu::Selm, 2, Some("Mask")),
    (Menu::Linr, 0, Some("NO CONVERSION")),
    (Menu::Oif, 1, Some("Incremental")),
];

static NUMBERS: [(Menu, &str, Option<u16>); 7] = [
    (Menu::Severity, "MAJOR", Some(2)),
    (Menu::Severity, "MAJO", None),
    (Menu::Severity, "major", None),
    (Menu::Status, "UDF", Some(17)),
    (Menu::Scan, "10 second", Some(3)),
    (Menu::Pini, "RUN", None),
    (Menu::Selm, "", None),
];

#[test]
fn texts_of_choices_and_their_numbers(rt: HostRuntime) {
    for (menu, number, wanted) in &TEXTS {
        assert!(rt; text(*menu, *number) == *wanted, "{number}");
    }
    for (menu, text, wanted) in &NUMBERS {
        assert!(rt; choice(*menu, text.as_bytes()) == *wanted, "{text}");
    }
    assert!(rt; choices(Menu::Status).len() == 22);
}

#[test]
fn numbers_of_choices(rt: HostRuntime) {
    let numbers = [
        Severity::Invalid.number(),
        Status::Udf.number(),
        Scan::TenthSecond.number(),
        Priority::Low.number(),
        Pini::Yes.number(),
        Omsl::Supervisory.number(),
        Ivoa::DontDriveOutputs.number(),
        Selm::Mask.number(),
        Linr::Linear.number(),
        Oif::Incremental.number(),
    ];
    assert!(rt; numbers == [3, 17, 9, 0, 1, 0, 1, 2, 2, 1]);
    let held = [
        Severity::from_number(1) == Some(Severity::Minor),
        Status::from_number(22) == None,
        Scan::from_number(0) == Some(Scan::Passive),
        Priority::from_number(2) == Some(Priority::High),
        Pini::from_number(2) == None,
        Omsl::from_number(1) == Some(Omsl::ClosedLoop),
        Ivoa::from_number(2) == Some(Ivoa::SetOutputToIvov),
        Selm::from_number(1) == Some(Selm::Specified),
        Linr::from_number(3) == None,
        Oif::from_number(0) == Some(Oif::Full),
    ];
    assert!(rt; held == [true; 10]);
}
