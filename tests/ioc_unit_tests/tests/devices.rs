//! Devices, including boxed ones.
use ioc_device::{Answer, Ask, Device, answer_of};
use ioc_values::Value;
use std::test::Fail;

/// Answers a read with the number of its calls, and a write asynchronously.
#[derive(Drop)]
struct Counting {
    asked: u16,
}

impl Device for Counting {
    ghost gives = { λ _ _ _ _ _. Unit {0} };

    fn read(&mut self, _moment: u64) -> Answer {
        self.asked = self.asked.saturating_add(1);
        Answer::Done(Value::UShort(self.asked))
    }

    fn write(&mut self, _value: Value, _moment: u64) -> Answer {
        self.asked = self.asked.saturating_add(1);
        Answer::Later
    }
}

// Returns whether a device of any type is called each time.
fn is_asked<D: Device>(device: &mut D) -> bool {
    let answers = [
        answer_of(device, &Ask::Read, 0),
        answer_of(device, &Ask::Write(Value::Long(5)), 1),
        answer_of(device, &Ask::Read, 2),
    ];
    let wanted = [
        Answer::Done(Value::UShort(1)),
        Answer::Later,
        Answer::Done(Value::UShort(3)),
    ];
    answers == wanted
}

#[test]
fn devices_are_asked_each_time(rt: HostRuntime) -> Result<(), Fail> {
    let mut boxed: Box<dyn Device + Send> = Box::new(rt.alloc(), Counting { asked: 0 })?;
    assert!(rt; is_asked(&mut Counting { asked: 0 }) && is_asked(&mut boxed));
    Ok(())
}
