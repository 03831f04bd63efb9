//! A plain Rust program that does what `ioc-replay` does on longin and ai records, as one writes it without proofs, to measure
//! `ioc-replay` beside it (bench/chain.sh with a type). A record is read by the name of a field, its value is converted to what the reader
//! wants, alarms go over links by their modes, and any field can be the target of a link.
//!
//! `records DB SCRIPT`: DB has a record a line, each with its fields in double quotes; SCRIPT has lines `process REC`, `put REC.F TEXT` and
//! `get REC.F`. It prints the replies of `ioc-replay`.
//!
//! `rustc -O records.rs` builds it.
use std::collections::HashMap;
use std::io::Write;

#[derive(Clone, Copy, PartialEq, Eq, PartialOrd, Ord, Debug)]
enum Severity {
    NoAlarm,
    Minor,
    Major,
    Invalid,
}

#[derive(Clone, Copy, PartialEq, Eq, Debug)]
enum Status {
    NoAlarm,
    HiHi,
    High,
    LoLo,
    Low,
    Scan,
    Link,
    Disable,
    Udf,
}

#[derive(Clone, Copy, PartialEq, Eq)]
enum Mode {
    None,
    Maximize,
    MaximizeIfInvalid,
    MaximizeStatus,
}

/// The value of a field.
#[derive(Clone)]
enum Value {
    Double(f64),
    Long(i32),
    Short(i16),
    Byte(u8),
    Severity(Severity),
    Status(Status),
    Text(String),
}

#[derive(Clone, Copy, PartialEq, Eq)]
enum Kind {
    Double,
    Long,
    Short,
}

#[derive(Clone, Copy, PartialEq, Eq, Hash)]
enum Field {
    Val,
    Hihi,
    Lolo,
    High,
    Low,
    Hhsv,
    Llsv,
    Hsv,
    Lsv,
    Hyst,
    Lalm,
    Mdel,
    Adel,
    Mlst,
    Alst,
    Prec,
    Smoo,
    Init,
    Desc,
    Disv,
    Disa,
    Udf,
    Udfs,
    Stat,
    Sevr,
    Lcnt,
    Pact,
}

/// A link to a field of a record.
#[derive(Clone)]
struct Link {
    target: usize,
    field: Field,
    processes: bool,
    mode: Mode,
}

/// The limits of a longin or an ai; those of a longin are whole numbers, which doubles have exactly.
#[derive(Clone, Copy)]
struct Limits {
    hihi: f64,
    lolo: f64,
    high: f64,
    low: f64,
    hihi_severity: Severity,
    lolo_severity: Severity,
    high_severity: Severity,
    low_severity: Severity,
    hysteresis: f64,
    last_alarmed: f64,
}

struct Longin {
    value: i32,
    limits: Limits,
}

struct Ai {
    value: f64,
    limits: Limits,
    precision: u16,
    monitor_deadband: f64,
    archive_deadband: f64,
    last_monitored: f64,
    last_archived: f64,
    smoothing: f64,
    initial: u8,
}

enum Body {
    Longin(Longin),
    Ai(Ai),
}

struct Record {
    description: String,
    is_passive: bool,
    disable: Option<Link>,
    forward: Option<Link>,
    input: Option<Link>,
    disable_value: i16,
    disable_input: i16,
    undefined: u8,
    undefined_severity: Severity,
    status: Status,
    severity: Severity,
    new_status: Status,
    new_severity: Severity,
    lock_count: u8,
    is_active: bool,
    is_put: bool,
    is_to_reprocess: bool,
    time: u64,
    body: Body,
}

/// What came of a link.
enum Got {
    Nothing,
    Value(Value),
    Fault,
}

impl Severity {
    fn of(text: &str) -> Option<Self> {
        Some(match text {
            "NO_ALARM" => Severity::NoAlarm,
            "MINOR" => Severity::Minor,
            "MAJOR" => Severity::Major,
            "INVALID" => Severity::Invalid,
            _ => return None,
        })
    }

    fn name(self) -> &'static str {
        match self {
            Severity::NoAlarm => "NO_ALARM",
            Severity::Minor => "MINOR",
            Severity::Major => "MAJOR",
            Severity::Invalid => "INVALID",
        }
    }
}

impl Status {
    fn name(self) -> &'static str {
        match self {
            Status::NoAlarm => "NO_ALARM",
            Status::HiHi => "HIHI",
            Status::High => "HIGH",
            Status::LoLo => "LOLO",
            Status::Low => "LOW",
            Status::Scan => "SCAN",
            Status::Link => "LINK",
            Status::Disable => "DISABLE",
            Status::Udf => "UDF",
        }
    }
}

impl Field {
    fn of(text: &str) -> Option<Self> {
        Some(match text {
            "VAL" => Field::Val,
            "HIHI" => Field::Hihi,
            "LOLO" => Field::Lolo,
            "HIGH" => Field::High,
            "LOW" => Field::Low,
            "HHSV" => Field::Hhsv,
            "LLSV" => Field::Llsv,
            "HSV" => Field::Hsv,
            "LSV" => Field::Lsv,
            "HYST" => Field::Hyst,
            "LALM" => Field::Lalm,
            "MDEL" => Field::Mdel,
            "ADEL" => Field::Adel,
            "MLST" => Field::Mlst,
            "ALST" => Field::Alst,
            "PREC" => Field::Prec,
            "SMOO" => Field::Smoo,
            "INIT" => Field::Init,
            "DESC" => Field::Desc,
            "DISV" => Field::Disv,
            "DISA" => Field::Disa,
            "UDF" => Field::Udf,
            "UDFS" => Field::Udfs,
            "STAT" => Field::Stat,
            "SEVR" => Field::Sevr,
            "LCNT" => Field::Lcnt,
            "PACT" => Field::Pact,
            _ => return None,
        })
    }
}

impl Value {
    /// Returns the value as a field of this kind has it.
    fn converted(&self, kind: Kind) -> Option<Value> {
        let number = match self {
            Value::Double(number) => *number,
            Value::Long(number) => f64::from(*number),
            Value::Short(number) => f64::from(*number),
            Value::Byte(number) => f64::from(*number),
            Value::Severity(severity) => f64::from(*severity as u8),
            Value::Status(status) => f64::from(*status as u8),
            Value::Text(text) => text.trim().parse().ok()?,
        };
        let within = |low: f64, high: f64| low <= number.trunc() && number.trunc() <= high;
        match kind {
            Kind::Double => Some(Value::Double(number)),
            Kind::Long if within(f64::from(i32::MIN), f64::from(i32::MAX)) => Some(Value::Long(number as i32)),
            Kind::Short if within(f64::from(i16::MIN), f64::from(i16::MAX)) => Some(Value::Short(number as i16)),
            _ => None,
        }
    }
}

impl Limits {
    fn new() -> Self {
        Limits {
            hihi: 0.0,
            lolo: 0.0,
            high: 0.0,
            low: 0.0,
            hihi_severity: Severity::NoAlarm,
            lolo_severity: Severity::NoAlarm,
            high_severity: Severity::NoAlarm,
            low_severity: Severity::NoAlarm,
            hysteresis: 0.0,
            last_alarmed: 0.0,
        }
    }

    fn get(&self, field: Field) -> Option<f64> {
        Some(match field {
            Field::Hihi => self.hihi,
            Field::Lolo => self.lolo,
            Field::High => self.high,
            Field::Low => self.low,
            Field::Hyst => self.hysteresis,
            Field::Lalm => self.last_alarmed,
            _ => return None,
        })
    }

    fn severity(&self, field: Field) -> Option<Severity> {
        Some(match field {
            Field::Hhsv => self.hihi_severity,
            Field::Llsv => self.lolo_severity,
            Field::Hsv => self.high_severity,
            Field::Lsv => self.low_severity,
            _ => return None,
        })
    }

    fn store(&mut self, field: Field, text: &str) -> Option<()> {
        match field {
            Field::Hhsv => self.hihi_severity = Severity::of(text)?,
            Field::Llsv => self.lolo_severity = Severity::of(text)?,
            Field::Hsv => self.high_severity = Severity::of(text)?,
            Field::Lsv => self.low_severity = Severity::of(text)?,
            _ => {
                let number: f64 = text.parse().ok()?;
                match field {
                    Field::Hihi => self.hihi = number,
                    Field::Lolo => self.lolo = number,
                    Field::High => self.high = number,
                    Field::Low => self.low = number,
                    Field::Hyst => self.hysteresis = number,
                    _ => return None,
                }
            }
        }
        Some(())
    }

    /// Returns the first limit that holds, with its alarm.
    fn holding(&self, value: f64) -> Option<(Status, Severity, f64)> {
        let limits = [
            (Status::HiHi, self.hihi_severity, self.hihi),
            (Status::LoLo, self.lolo_severity, self.lolo),
            (Status::High, self.high_severity, self.high),
            (Status::Low, self.low_severity, self.low),
        ];
        limits.iter().copied().find(|(status, severity, limit)| {
            let was_alarmed = self.last_alarmed == *limit;
            *severity != Severity::NoAlarm
                && match status {
                    Status::HiHi | Status::High => value >= *limit || (was_alarmed && value >= *limit - self.hysteresis),
                    _ => value <= *limit || (was_alarmed && value <= *limit + self.hysteresis),
                }
        })
    }
}

/// Returns whether a value has moved by more than a deadband.
fn has_moved(old: f64, new: f64, band: f64) -> bool {
    let change = if old.is_finite() && new.is_finite() {
        (old - new).abs()
    } else if old == new || (old.is_nan() && new.is_nan()) {
        0.0
    } else {
        f64::INFINITY
    };
    change > band
}

impl Ai {
    fn take(&mut self, value: f64) {
        self.value = if self.smoothing != 0.0 && self.initial == 0 && self.value.is_finite() {
            value * (1.0 - self.smoothing) + self.value * self.smoothing
        } else {
            value
        };
        self.initial = 0;
    }

    fn post(&mut self) {
        if has_moved(self.last_monitored, self.value, self.monitor_deadband) {
            self.last_monitored = self.value;
        }
        if has_moved(self.last_archived, self.value, self.archive_deadband) {
            self.last_archived = self.value;
        }
    }
}

impl Record {
    fn new(kind: &str) -> Option<Self> {
        let limits = Limits::new();
        let body = match kind {
            "longin" => Body::Longin(Longin { value: 0, limits }),
            "ai" => Body::Ai(Ai {
                value: 0.0,
                limits,
                precision: 0,
                monitor_deadband: 0.0,
                archive_deadband: 0.0,
                last_monitored: 0.0,
                last_archived: 0.0,
                smoothing: 0.0,
                initial: 1,
            }),
            _ => return None,
        };
        Some(Record {
            description: String::new(),
            is_passive: true,
            disable: None,
            forward: None,
            input: None,
            disable_value: 1,
            disable_input: 0,
            undefined: 1,
            undefined_severity: Severity::Invalid,
            status: Status::Udf,
            severity: Severity::Invalid,
            new_status: Status::NoAlarm,
            new_severity: Severity::NoAlarm,
            lock_count: 0,
            is_active: false,
            is_put: false,
            is_to_reprocess: false,
            time: 0,
            body,
        })
    }

    fn limits(&self) -> &Limits {
        match &self.body {
            Body::Longin(body) => &body.limits,
            Body::Ai(body) => &body.limits,
        }
    }

    fn limits_mut(&mut self) -> &mut Limits {
        match &mut self.body {
            Body::Longin(body) => &mut body.limits,
            Body::Ai(body) => &mut body.limits,
        }
    }

    fn own(&self, field: Field) -> Option<Value> {
        if let Some(severity) = self.limits().severity(field) {
            return Some(Value::Severity(severity));
        }
        match &self.body {
            Body::Longin(body) => match field {
                Field::Val => Some(Value::Long(body.value)),
                _ => body.limits.get(field).map(|number| Value::Long(number as i32)),
            },
            Body::Ai(body) => Some(Value::Double(match field {
                Field::Val => body.value,
                Field::Mdel => body.monitor_deadband,
                Field::Adel => body.archive_deadband,
                Field::Mlst => body.last_monitored,
                Field::Alst => body.last_archived,
                Field::Smoo => body.smoothing,
                Field::Prec => return Some(Value::Short(body.precision as i16)),
                Field::Init => return Some(Value::Byte(body.initial)),
                _ => return body.limits.get(field).map(Value::Double),
            })),
        }
    }

    fn get(&self, field: Field) -> Option<Value> {
        Some(match field {
            Field::Desc => Value::Text(self.description.clone()),
            Field::Disv => Value::Short(self.disable_value),
            Field::Disa => Value::Short(self.disable_input),
            Field::Udf => Value::Byte(self.undefined),
            Field::Udfs => Value::Severity(self.undefined_severity),
            Field::Stat => Value::Status(self.status),
            Field::Sevr => Value::Severity(self.severity),
            Field::Lcnt => Value::Byte(self.lock_count),
            Field::Pact => Value::Byte(u8::from(self.is_active)),
            _ => return self.own(field),
        })
    }

    /// Stores the text of a value.
    fn store(&mut self, field: Field, text: &str) -> Option<()> {
        match field {
            Field::Desc => self.description = text.to_string(),
            Field::Udfs => self.undefined_severity = Severity::of(text)?,
            Field::Disv => self.disable_value = text.parse().ok()?,
            Field::Val => {
                match &mut self.body {
                    Body::Longin(body) => body.value = text.parse().ok()?,
                    Body::Ai(body) => body.value = text.parse().ok()?,
                }
                self.undefined = 0;
            }
            _ => match (&mut self.body, field) {
                (Body::Ai(body), Field::Prec) => body.precision = text.parse().ok()?,
                (Body::Ai(body), Field::Mdel) => body.monitor_deadband = text.parse().ok()?,
                (Body::Ai(body), Field::Adel) => body.archive_deadband = text.parse().ok()?,
                (Body::Ai(body), Field::Smoo) => body.smoothing = text.parse().ok()?,
                _ => self.limits_mut().store(field, text)?,
            },
        }
        Some(())
    }

    fn raise(&mut self, status: Status, severity: Severity) -> bool {
        let is_graver = severity > self.new_severity;
        if is_graver {
            self.new_status = status;
            self.new_severity = severity;
        }
        is_graver
    }

    fn settle(&mut self) {
        self.status = self.new_status;
        self.severity = self.new_severity;
        self.new_status = Status::NoAlarm;
        self.new_severity = Severity::NoAlarm;
    }

    fn inherit(&mut self, mode: Mode, status: Status, severity: Severity) {
        match mode {
            Mode::None => {}
            Mode::Maximize => {
                self.raise(Status::Link, severity);
            }
            Mode::MaximizeIfInvalid => {
                if severity == Severity::Invalid {
                    self.raise(Status::Link, severity);
                }
            }
            Mode::MaximizeStatus => {
                self.raise(status, severity);
            }
        }
    }

    fn test(&mut self) {
        if self.undefined != 0 {
            let severity = self.undefined_severity;
            self.raise(Status::Udf, severity);
            return;
        }
        let value = match &self.body {
            Body::Longin(body) => f64::from(body.value),
            Body::Ai(body) => body.value,
        };
        match self.limits().holding(value) {
            Some((status, severity, limit)) => {
                if self.raise(status, severity) {
                    self.limits_mut().last_alarmed = limit;
                }
            }
            None => self.limits_mut().last_alarmed = value,
        }
    }

    /// Takes what came of the input, and raises the alarms.
    fn take(&mut self, got: Got) {
        match (&mut self.body, got) {
            (Body::Longin(body), Got::Value(Value::Long(value))) => {
                body.value = value;
                self.undefined = 0;
            }
            (Body::Ai(body), Got::Value(Value::Double(value))) => {
                body.take(value);
                self.undefined = u8::from(body.value.is_nan());
            }
            (Body::Ai(body), Got::Fault) => body.initial = 1,
            (Body::Ai(body), Got::Nothing) if body.value.is_nan() => self.undefined = 1,
            _ => {}
        }
        self.test();
    }

    fn show(&mut self, moment: u64) {
        self.is_active = true;
        self.time = moment;
        self.settle();
        if let Body::Ai(body) = &mut self.body {
            body.post();
        }
    }

    /// Counts a request of an active record.
    fn refuse(&mut self) {
        if self.status != Status::Scan {
            let before = self.lock_count;
            self.lock_count = before.saturating_add(1);
            if before >= 10 && self.severity != Severity::Invalid {
                self.raise(Status::Scan, Severity::Invalid);
                self.settle();
            }
        }
    }
}

/// All records, and the counts of requests.
struct Machine {
    names: HashMap<String, usize>,
    records: Vec<Record>,
    begun: u64,
    processed: u64,
    disabled: u64,
    active: u64,
}

impl Machine {
    /// Requests a record, and what it causes.
    fn request(&mut self, number: usize, moment: u64) {
        self.begun += 1;
        if self.records[number].is_active {
            self.active += 1;
            return self.records[number].refuse();
        }
        self.records[number].lock_count = 0;
        if let Some(link) = self.records[number].disable.clone() {
            if let Got::Value(Value::Short(value)) = self.read(number, &link, Kind::Short, moment) {
                self.records[number].disable_input = value;
            }
        }
        let record = &mut self.records[number];
        if record.disable_input == record.disable_value {
            self.disabled += 1;
            record.is_to_reprocess = false;
            record.is_put = false;
            if record.status != Status::Disable {
                record.status = Status::Disable;
                record.severity = Severity::NoAlarm;
                record.new_status = Status::NoAlarm;
                record.new_severity = Severity::NoAlarm;
            }
            return;
        }
        let kind = match &record.body {
            Body::Longin(_) => Kind::Long,
            Body::Ai(_) => Kind::Double,
        };
        let got = match record.input.clone() {
            Some(link) => self.read(number, &link, kind, moment),
            None => Got::Nothing,
        };
        let record = &mut self.records[number];
        record.take(got);
        record.show(moment);
        let forward = record.forward.as_ref().map(|link| link.target);
        if let Some(next) = forward {
            if self.records[next].is_passive {
                self.cause(number, next, moment);
            }
        }
        let record = &mut self.records[number];
        record.is_to_reprocess = false;
        record.is_put = false;
        record.is_active = false;
        self.processed += 1;
    }

    /// Requests a record by a link of another one, which is active meanwhile.
    fn cause(&mut self, source: usize, target: usize, moment: u64) {
        let kept = std::mem::replace(&mut self.records[source].is_active, true);
        if !self.records[target].is_active {
            self.records[target].is_put = self.records[source].is_put;
        }
        self.request(target, moment);
        self.records[source].is_active = kept;
    }

    /// Reads a link by a record that wants a value of this kind.
    fn read(&mut self, reader: usize, link: &Link, kind: Kind, moment: u64) -> Got {
        if link.processes && self.records[link.target].is_passive {
            self.cause(reader, link.target, moment);
        }
        let target = &self.records[link.target];
        let (status, severity) = (target.status, target.severity);
        match target.get(link.field).and_then(|value| value.converted(kind)) {
            Some(value) => {
                if link.target != reader {
                    self.records[reader].inherit(link.mode, status, severity);
                }
                Got::Value(value)
            }
            None => {
                self.records[reader].raise(Status::Link, Severity::Invalid);
                Got::Fault
            }
        }
    }

    fn link(&self, text: &str) -> Option<Link> {
        let mut words = text.split_whitespace();
        let (name, field) = match words.next()?.split_once('.') {
            Some((name, field)) => (name.to_string(), Field::of(field)?),
            None => (text.split_whitespace().next()?.to_string(), Field::Val),
        };
        let mut link = Link { target: *self.names.get(&name)?, field, processes: false, mode: Mode::None };
        for word in words {
            match word {
                "PP" => link.processes = true,
                "MS" => link.mode = Mode::Maximize,
                "MSI" => link.mode = Mode::MaximizeIfInvalid,
                "MSS" => link.mode = Mode::MaximizeStatus,
                _ => {}
            }
        }
        Some(link)
    }

    /// Reads a database text, a record a line.
    fn load(text: &str) -> Option<Machine> {
        let mut machine = Machine { names: HashMap::new(), records: Vec::new(), begun: 0, processed: 0, disabled: 0, active: 0 };
        let mut links = Vec::new();
        for line in text.lines() {
            let (head, body) = line.strip_prefix("record(")?.split_once("){")?;
            let (kind, name) = head.split_once(',')?;
            let number = machine.records.len();
            machine.names.insert(name.trim_matches('"').to_string(), number);
            let mut record = Record::new(kind)?;
            for part in body.split("field(").skip(1) {
                let (field, value) = part.split_once(",\"")?;
                let (value, _) = value.split_once('"')?;
                match field {
                    "INP" | "FLNK" | "SDIS" => links.push((number, field.to_string(), value.to_string())),
                    _ => record.store(Field::of(field)?, value)?,
                }
            }
            if record.undefined == 0 {
                record.severity = Severity::NoAlarm;
            }
            machine.records.push(record);
        }
        for (number, field, text) in links {
            let link = machine.link(&text);
            let record = &mut machine.records[number];
            match field.as_str() {
                "INP" => record.input = link,
                "FLNK" => record.forward = link,
                _ => record.disable = link,
            }
        }
        for record in &mut machine.records {
            if let Body::Ai(body) = &mut record.body {
                body.last_monitored = body.value;
                body.last_archived = body.value;
            }
            let value = match &record.body {
                Body::Longin(body) => f64::from(body.value),
                Body::Ai(body) => body.value,
            };
            record.limits_mut().last_alarmed = value;
        }
        Some(machine)
    }

    fn text(&self, number: usize, field: Field) -> Option<String> {
        let digits = match &self.records[number].body {
            Body::Ai(body) => usize::from(body.precision),
            Body::Longin(_) => 0,
        };
        Some(match self.records[number].get(field)? {
            Value::Double(value) => format!("{value:.digits$}"),
            Value::Long(value) => value.to_string(),
            Value::Short(value) => value.to_string(),
            Value::Byte(value) => value.to_string(),
            Value::Severity(value) => value.name().to_string(),
            Value::Status(value) => value.name().to_string(),
            Value::Text(value) => value,
        })
    }

    /// Does a line of a script, and writes its reply.
    fn line(&mut self, line: &str, out: &mut impl Write) -> Option<()> {
        let (verb, rest) = line.split_once(' ')?;
        match verb {
            "process" => {
                self.request(*self.names.get(rest)?, 0);
                writeln!(out, "ok processed").ok()
            }
            "put" => {
                let (place, text) = rest.split_once(' ')?;
                let (name, field) = place.split_once('.')?;
                let number = *self.names.get(name)?;
                self.records[number].store(Field::of(field)?, text)?;
                self.request(number, 0);
                writeln!(out, "ok processed").ok()
            }
            _ => {
                let (name, field) = rest.split_once('.')?;
                writeln!(out, "= {}", self.text(*self.names.get(name)?, Field::of(field)?)?).ok()
            }
        }
    }
}

fn main() {
    let words: Vec<String> = std::env::args().skip(1).collect();
    let [database, script] = &words[..] else {
        panic!("usage: records DB SCRIPT");
    };
    let text = std::fs::read_to_string(database).expect("a database");
    let mut machine = Machine::load(&text).expect("a record a line");
    let script = std::fs::read_to_string(script).expect("a script");
    let mut out = std::io::BufWriter::new(std::io::stdout().lock());
    for line in script.lines() {
        if machine.line(line, &mut out).is_none() {
            writeln!(out, "bad").expect("an output");
        }
    }
}
