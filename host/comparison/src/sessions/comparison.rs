//! Compares a program's logs with the independent ones, byte for byte.

use crate::damage;
use crate::sessions::tally::Tally;
use crate::sessions::{generate, program};
use independent::session;
use std::{fs, io};

/// A batch is compared when it has so many bytes.
const BATCH_BYTES: usize = 1 << 20;

/// A session with the seed that it was made from.
pub struct Seeded {
    pub seed: u64,
    pub bytes: Vec<u8>,
}

/// A comparison under way: the sessions that wait for their batch, and what was seen.
pub struct Comparison {
    program: String,
    batch: Vec<Seeded>,
    batch_bytes: usize,
    pub ended: u64,
    pub tally: Tally,
}

/// Why a comparison stops.
pub enum Stop {
    Failed(io::Error),
    Differs(Seeded),
}

impl From<io::Error> for Stop {
    fn from(error: io::Error) -> Stop {
        Stop::Failed(error)
    }
}

/// Whether the program says where the log of these bytes ended, or nothing where it is whole.
fn tells(said: &[u8], bytes: &[u8], end: usize) -> bool {
    if end == bytes.len() {
        return said.is_empty();
    }
    said.starts_with(format!("session_log: ended at byte {end}: ").as_bytes())
}

impl Comparison {
    pub fn new(program: String) -> Comparison {
        Comparison { program, batch: Vec::new(), batch_bytes: 0, ended: 0, tally: Tally::default() }
    }

    /// Compares so many sessions, the first of them with this seed.
    pub fn compare(&mut self, first: u64, count: u64) -> Result<(), Stop> {
        for seed in (0..count).map(|index| first.wrapping_add(index)) {
            self.take(Seeded { seed, bytes: generate::session(seed) })?;
        }
        self.finish_batch()
    }

    /// Compares a session that ends its log by itself, and lets another wait for its batch.
    fn take(&mut self, session: Seeded) -> Result<(), Stop> {
        if session::log_with_end(&session.bytes).1 == session.bytes.len() {
            self.batch_bytes += session.bytes.len();
            self.batch.push(session);
            return if self.batch_bytes < BATCH_BYTES { Ok(()) } else { self.finish_batch() };
        }
        self.ended += 1;
        if self.differs(&session.bytes)? {
            return Err(Stop::Differs(session));
        }
        self.tally.count(&session::log(&session.bytes));
        Ok(())
    }

    /// Compares the sessions that wait, joined into one.
    fn finish_batch(&mut self) -> Result<(), Stop> {
        let batch = std::mem::take(&mut self.batch);
        self.batch_bytes = 0;
        let mut joined = Vec::new();
        batch.iter().for_each(|session| joined.extend_from_slice(&session.bytes));
        if self.differs(&joined)? {
            return Err(Stop::Differs(self.single_out(batch, joined)?));
        }
        self.tally.count(&session::log(&joined));
        Ok(())
    }

    /// The session of a batch that differs by itself, else the whole batch.
    fn single_out(&self, batch: Vec<Seeded>, joined: Vec<u8>) -> io::Result<Seeded> {
        let first = batch.first().map_or(0, |session| session.seed);
        for session in batch {
            if self.differs(&session.bytes)? {
                return Ok(session);
            }
        }
        Ok(Seeded { seed: first, bytes: joined })
    }

    /// Whether the program's log of these bytes is another than the library's, or ends elsewhere.
    fn differs(&self, bytes: &[u8]) -> io::Result<bool> {
        let (expected, end) = session::log_with_end(bytes);
        let mut streamed = Vec::new();
        session::stream(bytes, &mut streamed)?;
        assert!(streamed == expected, "the library's two logs differ");
        let printed = program::output_of(&self.program, bytes)?;
        Ok(!printed.is_some_and(|given| given.log == expected && tells(&given.said, bytes, end)))
    }

    /// The session without the steps that its difference does not need.
    fn reduced(&self, bytes: &[u8]) -> io::Result<Vec<u8>> {
        let mut steps = damage::fields_of(bytes);
        let mut size = steps.len().div_ceil(2);
        while size > 0 {
            let mut start = 0;
            while start < steps.len() {
                let end = (start + size).min(steps.len());
                let fewer = [&steps[..start], &steps[end..]].concat();
                if self.differs(&fewer.concat())? {
                    steps = fewer;
                } else {
                    start = end;
                }
            }
            size /= 2;
        }
        Ok(steps.concat())
    }

    /// Tells a difference with both logs and writes its session, whole and reduced, to files.
    pub fn report(&self, session: &Seeded) -> io::Result<()> {
        let path = format!("difference-{}", session.seed);
        let reduced = self.reduced(&session.bytes)?;
        fs::write(format!("{path}.session"), &session.bytes)?;
        fs::write(format!("{path}.reduced"), &reduced)?;
        eprintln!("compare-sessions: seed {} differs", session.seed);
        eprintln!("its session is in {path}.session, with fewer steps in {path}.reduced");
        let given = program::output_of(&self.program, &reduced)?;
        match given {
            Some(given) => {
                eprintln!("the program's log:\n{}", String::from_utf8_lossy(&given.log));
                eprintln!("it said:\n{}", String::from_utf8_lossy(&given.said));
            }
            None => eprintln!("the program failed"),
        }
        eprintln!("the log by document 01:\n{}", String::from_utf8_lossy(&session::log(&reduced)));
        Ok(())
    }
}
