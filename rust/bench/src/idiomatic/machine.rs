//! What a call is lent besides the window, and the checks on it.

use super::refusal::Refusal;
use super::word::Form;
use starshackle::Flags;

/// What a call is lent besides the window.
#[derive(Clone, Copy)]
pub struct Machine<'a> {
    pub vb: usize,
    pub flags: u64,
    pub x: &'a [u64; 31],
    pub sp: u64,
    pub z: &'a [u8],
    pub p: &'a [u8],
}

impl<'a> Machine<'a> {
    pub fn has(&self, flag: Flags) -> bool {
        self.flags & flag.0 != 0
    }

    /// Whether the early edition's lengths are allowed.
    fn is_early(&self) -> bool {
        self.flags >> 8 & 1 == 1
    }

    pub fn z(&self, register: usize) -> &'a [u8] {
        &self.z[register * self.vb..][..self.vb]
    }

    pub fn p(&self, register: u64) -> &'a [u8] {
        let bytes = self.vb / 8;
        &self.p[register as usize * bytes..][..bytes]
    }

    /// Verdicts 1 and 2.
    pub fn check(&self) -> Result<(), Refusal> {
        let allowed = match self.is_early() && !self.has(Flags::STREAMING) {
            true => self.vb % 16 == 0 && (16..=256).contains(&self.vb),
            false => [16, 32, 64, 128, 256].contains(&self.vb),
        };
        if !allowed {
            return Err(Refusal::Length);
        }
        match self.z.len() == 32 * self.vb && self.p.len() == 2 * self.vb {
            true => Ok(()),
            false => Err(Refusal::Registers),
        }
    }

    /// Verdicts 4 and 5.
    pub fn allow(&self, form: Form) -> Result<(), Refusal> {
        let outside_streaming = !self.has(Flags::STREAMING) || self.has(Flags::FA64);
        let (feature, legal) = match form {
            Form::Scatter { .. } => (Flags::SVE, outside_streaming),
            Form::Strided { .. } => (Flags::SME2, self.has(Flags::STREAMING)),
            Form::Quadword => (Flags::SVE2P1, outside_streaming),
        };
        match (self.has(feature), legal) {
            (false, _) => Err(Refusal::Undefined),
            (true, false) => Err(Refusal::Illegal),
            (true, true) => Ok(()),
        }
    }
}
