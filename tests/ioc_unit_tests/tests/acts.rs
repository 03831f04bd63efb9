//! Steps on the fields that every record has.
use ioc_dbcommon::Common;
use ioc_links::Mode;
use ioc_menus::{Severity, Status};

/// A step on the fields that every record has.
#[derive(Clone, Copy)]
pub enum Act {
    Raise(Status, Severity),
    Inherit(Mode, Status, Severity),
    /// Shows the alarms.
    Show,
    /// Makes the record active, other than by a request.
    Activate,
    /// Shows the alarms with this time stamp.
    ShowAt(u64),
    /// A request finds the record disabled.
    Disable,
    /// Sets PUTF and RPRO.
    MarkPut(bool),
    MarkReprocess(bool),
    /// Tests whether the record is passive.
    Passive(bool),
    /// A request finds the record active.
    Block,
    /// A request finds the record idle.
    Unblock,
    Wait,
    EndWait,
    /// Tests the number of the completion that the record awaits.
    Awaits(Option<u64>),
    /// Tests the number of the last completion.
    LastAwaited(u64),
}

/// Carries out a step, and returns whether it has the expected result.
pub fn is_done(common: &mut Common, act: Act) -> bool {
    match act {
        Act::Raise(status, severity) => common.condition.raise(status, severity),
        Act::Inherit(mode, status, severity) => common.condition.inherit(mode, status, severity),
        Act::Show => common.show(0),
        Act::ShowAt(moment) => common.show(moment),
        Act::Disable => common.disable(),
        Act::MarkPut(by_put) => common.mark_put(by_put),
        Act::MarkReprocess(reprocess) => common.mark_reprocess(reprocess),
        Act::Passive(wanted) => return common.is_passive() == wanted,
        Act::Activate => common.active = true,
        Act::Block => common.block(),
        Act::Unblock => common.unblock(),
        Act::Wait if common.last_pending < u64::MAX => common.wait(),
        Act::Wait => return false,
        Act::EndWait => common.end_wait(),
        Act::Awaits(number) => return common.pending == number,
        Act::LastAwaited(number) => return common.last_pending == number,
    }
    true
}
