//! What the threads do.
use crate::database::Records;
use ioc_engine::Limits;

// The largest journal that an engine can have.
const MOST_PLACES: u64 = 4_194_304;

// The most records of an event. With a further one, a callback queue has room for four events.
const MOST_CALLED: usize = 499;

/// The work of a thread. The records that it calls are those with its number, from 0 on.
#[derive(Clone, Copy)]
pub enum Work {
    /// A round requests a record without links.
    Lone,
    /// A round requests the first record of a chain.
    Chain,
    /// A round requests the first record of a chain whose records are watched, and marked from the first
    /// round on.
    Marked,
    /// The same, and looks at each record that is marked.
    Watched,
    /// A round puts a value into a record without links.
    Put,
    /// A round is a put with notification into a record that awaits its device, and its completion.
    Notify,
    /// A round joins two sets of ten records by a link, or parts them again.
    Link,
    /// A round is a put with notification into a record that awaits its device, its cancel, and the
    /// completion of the record.
    Cancel,
    /// A round posts an event, for which a record without links waits, and serves its request.
    Post,
    /// A round is a request of one of the records of an event, which one of the threads serves.
    /// A further thread posts the event. It has 499 records at most.
    Serve,
    /// A round requests one of the records, by all threads in turn. A checkpoint is made each
    /// 100,000 calls, of a journal with all places that it can have.
    Spread,
    /// As `Spread`, of a journal with 200,000 places.
    Narrow,
    /// No thread calls anything: the program waits until standard input ends, so that the memory of
    /// the records at rest can be looked at.
    Hold,
}

impl Work {
    /// Returns the work with this name.
    pub fn from_name(name: &str) -> Option<Work> {
        match name {
            "lone" => Some(Work::Lone),
            "chain" => Some(Work::Chain),
            "marked" => Some(Work::Marked),
            "watched" => Some(Work::Watched),
            "put" => Some(Work::Put),
            "notify" => Some(Work::Notify),
            "link" => Some(Work::Link),
            "cancel" => Some(Work::Cancel),
            "post" => Some(Work::Post),
            "serve" => Some(Work::Serve),
            "spread" => Some(Work::Spread),
            "narrow" => Some(Work::Narrow),
            "hold" => Some(Work::Hold),
            _ => None,
        }
    }

    /// Returns the name of the work.
    pub fn name(self) -> &'static str {
        match self {
            Work::Lone => "lone",
            Work::Chain => "chain",
            Work::Marked => "marked",
            Work::Watched => "watched",
            Work::Put => "put",
            Work::Notify => "notify",
            Work::Link => "link",
            Work::Cancel => "cancel",
            Work::Post => "post",
            Work::Serve => "serve",
            Work::Spread => "spread",
            Work::Narrow => "narrow",
            Work::Hold => "hold",
        }
    }
}

/// A work with its numbers.
#[derive(Clone, Copy)]
pub struct Job {
    pub work: Work,
    /// The number of rounds of each thread.
    pub rounds: u64,
    pub threads: usize,
    /// The length of a chain, or the number of records beside those that are called.
    pub size: usize,
    /// The number of events that a lock set keeps.
    pub history: usize,
}

impl Job {
    /// Returns the limits of the engine.
    pub fn limits(&self) -> Limits {
        let (journal, checkpoint_at) = match self.work {
            Work::Spread => (MOST_PLACES, MOST_PLACES - 100_000),
            Work::Narrow => (200_000, 100_000),
            _ => (MOST_PLACES, 0),
        };
        Limits {
            journal,
            checkpoint_at,
            history: self.history,
        }
    }

    /// Returns the number of records that wait for the event of work that serves.
    pub fn crowd(&self) -> usize {
        self.size.clamp(1, MOST_CALLED)
    }

    /// Returns the records of the job.
    pub fn records(&self) -> Records {
        let threads = self.threads;
        let (chains, length, awaiting, others) = match self.work {
            Work::Lone | Work::Put => (threads, 1, 0, self.size),
            Work::Chain | Work::Marked | Work::Watched => (threads, self.size, 0, 0),
            Work::Link => (threads.saturating_mul(2), 10, 0, self.size),
            Work::Notify | Work::Cancel => (0, 0, threads, self.size),
            Work::Post | Work::Spread | Work::Narrow | Work::Hold => (0, 0, 0, self.size),
            Work::Serve => (0, 0, 0, 0),
        };
        let called = match self.work {
            Work::Post => threads,
            _ => 0,
        };
        let crowd = match self.work {
            Work::Serve => self.crowd(),
            _ => 0,
        };
        Records {
            called,
            crowd,
            chains,
            length,
            awaiting,
            others,
        }
    }
}
