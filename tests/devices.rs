//! Readers and writers that do less than they may, or fail.

use std::io;
use std::io::{Read, Write};

/// Reads and writes one byte a turn.
#[derive(Drop)]
pub struct OneByte<T>(pub T);

impl<T: Read> Read for OneByte<T> {
    fn read(&mut self, buf: &mut [u8]) -> io::Result<usize> {
        match buf.first_mut() {
            Some(byte) => {
                let mut one = [0u8];
                let count = self.0.read(&mut one)?;
                *byte = one[0];
                Ok(count)
            }
            None => Ok(0),
        }
    }
}

impl<T: Write> Write for OneByte<T> {
    fn write(&mut self, buf: &[u8]) -> io::Result<usize> {
        if buf.is_empty() {
            return Ok(0);
        }
        self.0.write(&buf[..1])
    }

    fn flush(&mut self) -> io::Result<()> {
        self.0.flush()
    }
}

/// Answers Interrupted before each turn.
#[derive(Drop)]
pub struct Interrupted<T> {
    pub inner: T,
    is_next: bool,
}

impl<T> Interrupted<T> {
    pub fn new(inner: T) -> Interrupted<T> {
        Interrupted {
            inner,
            is_next: true,
        }
    }

    /// Whether the present turn is interrupted.
    fn turn(&mut self) -> io::Result<()> {
        let is_now = self.is_next;
        self.is_next = !is_now;
        if is_now {
            return Err(io::ErrorKind::Interrupted.into());
        }
        Ok(())
    }
}

impl<T: Read> Read for Interrupted<T> {
    fn read(&mut self, buf: &mut [u8]) -> io::Result<usize> {
        self.turn()?;
        self.inner.read(buf)
    }
}

impl<T: Write> Write for Interrupted<T> {
    fn write(&mut self, buf: &[u8]) -> io::Result<usize> {
        self.turn()?;
        self.inner.write(buf)
    }

    fn flush(&mut self) -> io::Result<()> {
        self.inner.flush()
    }
}

/// Fails once, after this many turns.
#[derive(Drop)]
pub struct Fails<T> {
    pub inner: T,
    after: Option<usize>,
}

impl<T> Fails<T> {
    pub fn new(inner: T, after: usize) -> Fails<T> {
        Fails {
            inner,
            after: Some(after),
        }
    }

    /// Whether the present turn fails.
    fn turn(&mut self) -> io::Result<()> {
        if self.after == Some(0) {
            self.after = None;
            return Err(io::ErrorKind::Other.into());
        }
        self.after = self.after.map(|turns| turns.saturating_sub(1));
        Ok(())
    }
}

impl<T: Read> Read for Fails<T> {
    fn read(&mut self, buf: &mut [u8]) -> io::Result<usize> {
        self.turn()?;
        self.inner.read(buf)
    }
}

impl<T: Write> Write for Fails<T> {
    fn write(&mut self, buf: &[u8]) -> io::Result<usize> {
        self.turn()?;
        self.inner.write(buf)
    }

    fn flush(&mut self) -> io::Result<()> {
        self.inner.flush()
    }
}

/// Takes no byte.
#[derive(Drop)]
pub struct TakesNone;

impl Write for TakesNone {
    fn write(&mut self, _buf: &[u8]) -> io::Result<usize> {
        Ok(0)
    }

    fn flush(&mut self) -> io::Result<()> {
        Ok(())
    }
}

/// Answers Interrupted at each turn, from one on, and counts its turns.
#[derive(Drop)]
pub struct InterruptedForGood<T> {
    pub inner: T,
    before: u64,
    pub turns: u64,
}

impl<T> InterruptedForGood<T> {
    /// A device with so many turns before the first that is interrupted.
    pub fn new(inner: T, before: u64) -> InterruptedForGood<T> {
        InterruptedForGood {
            inner,
            before,
            turns: 0,
        }
    }

    /// Whether the present turn is interrupted.
    fn turn(&mut self) -> io::Result<()> {
        self.turns = self.turns.saturating_add(1);
        if self.turns > self.before {
            return Err(io::ErrorKind::Interrupted.into());
        }
        Ok(())
    }
}

impl<T: Read> Read for InterruptedForGood<T> {
    fn read(&mut self, buf: &mut [u8]) -> io::Result<usize> {
        self.turn()?;
        self.inner.read(buf)
    }
}

impl<T: Write> Write for InterruptedForGood<T> {
    fn write(&mut self, buf: &[u8]) -> io::Result<usize> {
        self.turn()?;
        self.inner.write(buf)
    }

    fn flush(&mut self) -> io::Result<()> {
        self.inner.flush()
    }
}

/// Counts the turns of a writer.
#[derive(Drop)]
pub struct Turns<T> {
    pub inner: T,
    pub count: usize,
}

impl<T> Turns<T> {
    pub fn new(inner: T) -> Turns<T> {
        Turns { inner, count: 0 }
    }
}

impl<T: Write> Write for Turns<T> {
    fn write(&mut self, buf: &[u8]) -> io::Result<usize> {
        self.count = self.count.saturating_add(1);
        self.inner.write(buf)
    }

    fn flush(&mut self) -> io::Result<()> {
        self.inner.flush()
    }
}
