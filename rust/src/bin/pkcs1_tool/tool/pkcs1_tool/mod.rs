// Made of crates/pkcs1_tool/src/main.rt by tools/erase/erase.py, and not to be edited.
//! Without arguments the program reads lines and writes one for each: `pub HEX` asks for the RSA public key with this
//! encoding, `priv HEX` for the private key, `pss HEX` and `oaep HEX` for parameters of RSASSA-PSS and RSAES-OAEP;
//! `pkcs1_program` has the other words. `copy pub IN OUT` and `copy priv IN OUT` copy a key from file to file.

#[cfg(test)]
mod tests;

use crate::rattle_std::prelude::{Eprint, HostRuntime, String, Vec, eprintln};
use crate::proved::der_core::{FromRead, Sink, Source, ToWrite};
use crate::tool::pkcs1_program::{
    Fault, Plan, ReplaceFiles, behind_name, copy_priv, copy_pub, plan_of, run, status,
};
use crate::rattle_std::alloc::Global;
use crate::rattle_std::fmt::Display;
use crate::rattle_std::path::Path;
use crate::rattle_std::process::ExitCode;
use crate::rattle_std::{env, io};

const USAGE: &str = "usage: pkcs1_tool [copy pub|priv IN OUT]";

/// The arguments, the program's name first.
fn arguments(rt: &HostRuntime) -> io::Result<Vec<String>> {
    let mut arguments = Vec::new_in(rt.alloc());
    for argument in env::args(rt)? {
        arguments.push(argument)?;
    }
    Ok(arguments)
}

/// Whether it succeeded. Prints an error to standard error.
fn reported<T, E: Display>(rt: &impl Eprint, outcome: Result<T, E>) -> bool {
    match outcome {
        Ok(_) => true,
        Err(error) => {
            let _ = eprintln!(rt; "{error}");
            false
        }
    }
}

/// Carries out the plan. Lines are read from the source and answered to the sink. Returns the exit status, which is
/// that of the plan, after success or not. It is 0 only if the lines were answered, or the key was copied.
fn carry_out<P: Eprint, F: ReplaceFiles, R: Source, W: Sink>(
    rt: &P,
    alloc: Global,
    plan: &Plan<'_>,
    files: &mut F,
    source: &mut R,
    sink: &mut W,
) -> u8 {
    let ok = match plan {
        Plan::Usage => reported::<(), _>(rt, Err(USAGE)),
        Plan::Lines => reported(rt, run(alloc, source, sink)),
        Plan::CopyPub { input, output } => {
            let (input, output) = (Path::new(input), Path::new(output));
            reported(rt, copy_pub(files, alloc, input, output))
        }
        Plan::CopyPriv { input, output } => {
            let (input, output) = (Path::new(input), Path::new(output));
            reported(rt, copy_priv(files, alloc, input, output))
        }
    };
    status(plan, ok)
}

pub fn main(rt: HostRuntime) -> ExitCode {
    let status = match arguments(&rt) {
        Ok(arguments) => {
            let plan = plan_of(behind_name(arguments.as_slice()));
            let (mut source, mut sink) = (FromRead::new(rt.stdin()), ToWrite::new(rt.stdout()));
            carry_out(&rt, rt.alloc(), &plan, &mut &rt, &mut source, &mut sink)
        }
        Err(error) if error.kind() == io::ErrorKind::OutOfMemory => {
            status(&Plan::Lines, reported::<(), _>(&rt, Err(Fault::Memory)))
        }
        Err(_) => status(&Plan::Usage, reported::<(), _>(&rt, Err(USAGE))),
    };
    ExitCode::from(status)
}
