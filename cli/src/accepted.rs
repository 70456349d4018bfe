//! A routine that the library accepts, with its plan.

use crate::ending::Stop;
use crate::files::{File, Form};
use crate::notation::Names;
use crate::routine::Routine;
use hpf_remap::{Plan, Refusal, Report};

/// A routine that the library accepts, with the names that its text gave.
#[derive(Debug)]
pub struct Accepted {
    pub bytes: Vec<u8>,
    pub routine: Routine,
    pub names: Names,
    plan: Vec<u8>,
}

impl Accepted {
    /// Plans a routine, converted if it is a directive file.
    pub fn new(file: File) -> Result<Accepted, Stop> {
        let bytes = routine_of(&file)?;
        let plan = hpf_remap::planned(&bytes)?;
        let routine = Routine::from_bytes(&bytes).ok_or(Stop::unread("routine"))?;
        Ok(Accepted {
            names: file.names,
            bytes,
            routine,
            plan,
        })
    }

    pub fn plan(&self) -> Result<Plan<'_>, Stop> {
        Plan::new(&self.plan).ok_or(Stop::unread("plan"))
    }

    /// A report on this routine, read.
    pub fn report<'r>(&self, report: &'r [u8]) -> Result<Report<'r>, Stop> {
        Report::new(&self.bytes, report).ok_or(Stop::unread("report"))
    }
}

/// The bytes of the routine, which directives are converted to.
pub fn routine_of(file: &File) -> Result<Vec<u8>, Refusal> {
    match file.form {
        Form::Directives => hpf_remap::converted(&file.bytes),
        Form::Routine | Form::Path => Ok(file.bytes.clone()),
    }
}
