//! Readers and writers of one byte per call.
ghost use Rattle.std.specs.Prelude.{Some};

use std::io::{self, Read, Write};

/// A writer that takes one byte per call, and fails after a number of bytes.
#[derive(Drop)]
pub struct OneByteWriter {
    pub held: Vec<u8>,
    pub left: usize,
}

impl Write for OneByteWriter {
    ghost contents = { λ w. Some w.held.items };

    fn write(&mut self, buf: &[u8]) -> io::Result<usize> {
        if self.left == 0 {
            return Err(io::Error::from(io::ErrorKind::Other));
        }
        match buf {
            [] => Ok(0),
            [first, ..] => {
                self.held.push(*first)?;
                self.left -= 1;
                Ok(1)
            }
        }
    }

    fn flush(&mut self) -> io::Result<()> {
        Ok(())
    }
}

/// A reader that returns one byte per call, and fails after a number of bytes.
#[derive(Drop)]
pub struct OneByteReader<'a> {
    pub rest: &'a [u8],
    pub left: usize,
}

impl<'a> Read for OneByteReader<'a> {
    fn read(&mut self, buf: &mut [u8]) -> io::Result<usize> {
        if self.left == 0 {
            return Err(io::Error::from(io::ErrorKind::Other));
        }
        let [first, rest @ ..] = self.rest else {
            return Ok(0);
        };
        let Some(place) = buf.first_mut() else {
            return Ok(0);
        };
        *place = *first;
        self.rest = rest;
        self.left -= 1;
        Ok(1)
    }
}
