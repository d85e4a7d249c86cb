//! The plain twin of `record_cut`: an automaton of the same form, with no proof.
#![allow(dead_code)]

/// The most bytes of a record.
pub const LONGEST: u32 = 65_536;

#[derive(Clone, Copy, PartialEq, Debug)]
pub enum Fault {
    BadQuote,
    RecordTooLong,
    OpenQuote,
}

#[derive(Clone, Copy, PartialEq)]
enum Phase {
    /// At the very beginning, or after so many bytes of a mark.
    Mark(u8),
    Record,
    Field,
    Plain,
    PlainCr,
    Quoted,
    AfterQuote,
    QuotedCr,
    Refused(Fault),
}

pub struct Fields {
    pub bytes: Vec<u8>,
    pub ends: Vec<u32>,
}

pub struct Cutter {
    sep: u8,
    phase: Phase,
    count: u32,
    bytes: Vec<u8>,
    ends: Vec<u32>,
}

pub struct Taken {
    pub count: usize,
    pub answer: Result<Option<Fields>, Fault>,
}

impl Cutter {
    pub fn new(sep: u8) -> Cutter {
        Cutter { sep, phase: Phase::Mark(0), count: 0, bytes: Vec::new(), ends: Vec::new() }
    }

    pub fn feed(&mut self, byte: u8) -> Result<Option<Fields>, Fault> {
        if let Phase::Refused(fault) = self.phase {
            return Err(fault);
        }
        let answer = self.step(byte);
        if let Err(fault) = answer {
            self.phase = Phase::Refused(fault);
        }
        answer
    }

    fn step(&mut self, byte: u8) -> Result<Option<Fields>, Fault> {
        if self.count >= LONGEST {
            return Err(Fault::RecordTooLong);
        }
        self.count += 1;
        match self.phase {
            Phase::Mark(0) if byte == 0xEF => self.keep(byte, Phase::Mark(1)),
            Phase::Mark(1) if byte == 0xBB => self.keep(byte, Phase::Mark(2)),
            Phase::Mark(2) if byte == 0xBF => {
                self.bytes.clear();
                self.count = 0;
                self.go(Phase::Record)
            }
            Phase::Mark(0) | Phase::Record if byte == b'\n' => {
                self.count = 0;
                self.go(Phase::Record)
            }
            Phase::Mark(0) | Phase::Record | Phase::Field if byte == b'"' => self.go(Phase::Quoted),
            Phase::Quoted if byte == b'"' => self.go(Phase::AfterQuote),
            Phase::Quoted => self.keep(byte, Phase::Quoted),
            Phase::AfterQuote if byte == b'"' => self.keep(byte, Phase::Quoted),
            Phase::AfterQuote if byte == b'\r' => self.go(Phase::QuotedCr),
            Phase::AfterQuote if byte == self.sep => self.end_field(),
            Phase::AfterQuote | Phase::QuotedCr if byte == b'\n' => Ok(Some(self.end_record())),
            Phase::AfterQuote | Phase::QuotedCr => Err(Fault::BadQuote),
            Phase::PlainCr if byte == b'\n' => {
                if self.ends.is_empty() && self.count == 2 {
                    self.count = 0;
                    return self.go(Phase::Record);
                }
                Ok(Some(self.end_record()))
            }
            phase => {
                if phase == Phase::PlainCr {
                    self.bytes.push(b'\r');
                }
                match byte {
                    b'"' => Err(Fault::BadQuote),
                    b'\n' => Ok(Some(self.end_record())),
                    b'\r' => self.go(Phase::PlainCr),
                    _ if byte == self.sep => self.end_field(),
                    _ => self.keep(byte, Phase::Plain),
                }
            }
        }
    }

    fn go(&mut self, phase: Phase) -> Result<Option<Fields>, Fault> {
        self.phase = phase;
        Ok(None)
    }

    fn keep(&mut self, byte: u8, phase: Phase) -> Result<Option<Fields>, Fault> {
        self.bytes.push(byte);
        self.go(phase)
    }

    fn end_field(&mut self) -> Result<Option<Fields>, Fault> {
        self.ends.push(self.bytes.len() as u32);
        self.go(Phase::Field)
    }

    fn end_record(&mut self) -> Fields {
        self.ends.push(self.bytes.len() as u32);
        self.phase = Phase::Record;
        self.count = 0;
        let fields = Fields { bytes: self.bytes.clone(), ends: self.ends.clone() };
        self.bytes.clear();
        self.ends.clear();
        fields
    }

    pub fn feed_slice(&mut self, bytes: &[u8]) -> Taken {
        let mut count = 0;
        while count < bytes.len() {
            count += self.take_run(&bytes[count..]);
            let Some(byte) = bytes.get(count) else { break };
            let answer = self.feed(*byte);
            count += 1;
            if !matches!(answer, Ok(None)) {
                return Taken { count, answer };
            }
        }
        Taken { count, answer: Ok(None) }
    }

    /// Takes the ordinary bytes that come first and go on with a field.
    fn take_run(&mut self, bytes: &[u8]) -> usize {
        let bytes = &bytes[..bytes.len().min((LONGEST - self.count) as usize)];
        let sep = self.sep;
        let (end, next) = match self.phase {
            Phase::Field | Phase::Plain => {
                (bytes.iter().position(|b| *b == sep || matches!(b, b'"' | b'\r' | b'\n')), Phase::Plain)
            }
            Phase::Quoted => (bytes.iter().position(|b| *b == b'"'), Phase::Quoted),
            _ => return 0,
        };
        let len = end.unwrap_or(bytes.len());
        if len > 0 {
            self.bytes.extend_from_slice(&bytes[..len]);
            self.count += len as u32;
            self.phase = next;
        }
        len
    }

    pub fn finish(&mut self) -> Result<Option<Fields>, Fault> {
        let fault = match self.phase {
            Phase::Refused(fault) => fault,
            Phase::Quoted => Fault::OpenQuote,
            Phase::QuotedCr => Fault::BadQuote,
            Phase::Mark(0) | Phase::Record => {
                self.phase = Phase::Mark(0);
                return Ok(None);
            }
            phase => {
                if phase == Phase::PlainCr {
                    self.bytes.push(b'\r');
                }
                let fields = self.end_record();
                self.phase = Phase::Mark(0);
                return Ok(Some(fields));
            }
        };
        self.phase = Phase::Refused(fault);
        Err(fault)
    }
}
