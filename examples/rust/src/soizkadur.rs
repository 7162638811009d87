//! The calls of library/soizkadur.h that this example makes, and a type that owns an MME.

use std::ffi::c_void;
use std::fmt;
use std::ptr;

/// `soizkadur_mme`.
#[repr(C)]
struct Handle {
    at: *mut c_void,
}

/// `soizkadur_fault`.
#[repr(C)]
#[derive(Default)]
struct Fault {
    line: u64,
    refusal: u32,
}

/// `soizkadur_output`.
#[repr(C)]
#[derive(Default)]
struct Output {
    owner: u32,
    number: u32,
    station: u32,
    length: usize,
}

/// `soizkadur_subscriber_states`: the EMM, ECM and ESM state.
#[repr(C)]
#[derive(Default, PartialEq, Eq, Debug)]
pub struct States {
    pub emm: u32,
    pub ecm: u32,
    pub esm: u32,
}

/// Registered, connected, and its bearer is active.
pub const ATTACHED: States = States { emm: 2, ecm: 1, esm: 2 };

const OK: u32 = 0;
const MOST_OCTETS: usize = 16388;

#[link(name = "soizkadur", kind = "static")]
extern "C" {
    fn soizkadur_new(mme: *mut Handle, lines: *const u8, length: usize, fault: *mut Fault) -> u32;
    fn soizkadur_up(mme: *mut Handle, station: u8) -> u32;
    fn soizkadur_in(mme: *mut Handle, station: u8, octets: *const u8, length: usize) -> u32;
    fn soizkadur_count(mme: *mut Handle, reply: usize, count: *mut usize) -> u32;
    fn soizkadur_out(
        mme: *mut Handle,
        reply: usize,
        index: usize,
        output: *mut Output,
        buffer: *mut u8,
        room: usize,
    ) -> u32;
    fn soizkadur_states(mme: *mut Handle, imsi: *const u8, length: usize, states: *mut States) -> u32;
    fn soizkadur_free(mme: *mut Handle);
}

/// Why a call was refused: a number of `enum soizkadur_refusal`, and of provisioning lines the line.
#[derive(Debug)]
pub struct Refused {
    pub refusal: u32,
    pub line: Option<u64>,
}

impl fmt::Display for Refused {
    fn fmt(&self, to: &mut fmt::Formatter<'_>) -> fmt::Result {
        match self.line {
            Some(line) => write!(to, "line {line}: refused, {}", self.refusal),
            None => write!(to, "refused, {}", self.refusal),
        }
    }
}

impl std::error::Error for Refused {}

fn taken(answer: u32) -> Result<(), Refused> {
    match answer {
        OK => Ok(()),
        refusal => Err(Refused { refusal, line: None }),
    }
}

/// A message that the MME sends.
pub struct Out {
    pub station: u32,
    pub octets: Vec<u8>,
}

/// One MME. Its raw pointer keeps it on its thread: it is neither `Send` nor `Sync`.
pub struct Mme {
    handle: Handle,
}

impl Mme {
    /// An MME of the provisioning lines of a trace, started.
    pub fn from_lines(lines: &str) -> Result<Mme, Refused> {
        let mut mme = Mme { handle: Handle { at: ptr::null_mut() } };
        let mut fault = Fault::default();
        match unsafe { soizkadur_new(&mut mme.handle, lines.as_ptr(), lines.len(), &mut fault) } {
            OK => Ok(mme),
            refusal => Err(Refused { refusal, line: Some(fault.line) }),
        }
    }

    /// A station connects.
    pub fn up(&mut self, station: u8) -> Result<Vec<Out>, Refused> {
        taken(unsafe { soizkadur_up(&mut self.handle, station) })?;
        self.outs()
    }

    /// A station sends one whole S1AP message.
    pub fn receive(&mut self, station: u8, octets: &[u8]) -> Result<Vec<Out>, Refused> {
        taken(unsafe { soizkadur_in(&mut self.handle, station, octets.as_ptr(), octets.len()) })?;
        self.outs()
    }

    /// The states of the subscriber of an IMSI.
    pub fn states(&mut self, imsi: &str) -> Result<States, Refused> {
        let mut states = States::default();
        taken(unsafe { soizkadur_states(&mut self.handle, imsi.as_ptr(), imsi.len(), &mut states) })?;
        Ok(states)
    }

    /// The messages of the last event's reply.
    fn outs(&mut self) -> Result<Vec<Out>, Refused> {
        let mut count = 0;
        taken(unsafe { soizkadur_count(&mut self.handle, 0, &mut count) })?;
        (0..count).map(|place| self.out(place)).collect()
    }

    fn out(&mut self, place: usize) -> Result<Out, Refused> {
        let mut output = Output::default();
        let mut octets = vec![0; MOST_OCTETS];
        taken(unsafe {
            soizkadur_out(&mut self.handle, 0, place, &mut output, octets.as_mut_ptr(), octets.len())
        })?;
        octets.truncate(output.length);
        Ok(Out { station: output.station, octets })
    }
}

impl Drop for Mme {
    fn drop(&mut self) {
        unsafe { soizkadur_free(&mut self.handle) }
    }
}
