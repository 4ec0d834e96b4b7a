// Made of crates/pkcs1_tool/src/tests/program.rt by tools/erase/erase.py, and not to be edited.
//! Runs of the program over sources and sinks that move a few bytes per call and fail at one call; plans.
use crate::rattle_std::prelude::{HostRuntime, String, Vec, assert, assert_eq, ToString};
use crate::tool::pkcs1_tool::tests::checks::equal;
use crate::tool::pkcs1_tool::tests::doubles::{FailingReader, FailingWriter, Full, Many, failing_at, giving, taking};
use crate::proved::der_core::{FromRead, Sink, Source, ToWrite};
use crate::tool::pkcs1_program::{Fault, Plan, behind_name, plan_of, run, status};
use crate::rattle_std::test::Fail;

const INPUT: &[u8; 45] = b"pub 3006020107020103\n\npub 300602010702010300\n";

const OUTPUT: &[u8; 54] = b"pub n=07 e=03 again=3006020107020103\nbad line\nrefused\n";

#[test]
fn answers_lines() -> Result<(), Fail> { let rt = HostRuntime;
    let odd = b"\xff\xfe\0\npub 3006020107020103\r\n";
    for (input, want) in [
        (b"".as_slice(), b"".as_slice()),
        (INPUT.as_slice(), OUTPUT.as_slice()),
        (&INPUT[..44], OUTPUT.as_slice()),
        (odd.as_slice(), b"bad line\nbad line\n".as_slice()),
    ] {
        let mut source = FromRead::new(input);
        let mut sink = ToWrite::new(Vec::new_in(rt.alloc()));
        run(rt.alloc(), &mut source, &mut sink)?;
        equal(&rt, (source.faults(), sink.faults()), (0, 0));
        equal(&rt, sink.into_inner().as_slice(), want);
    }
    Ok(())
}

#[test]
fn stops_on_a_failed_read() { let rt = HostRuntime;
    for failing in 0..48 {
        let mut source = giving(INPUT, failing);
        let mut sink = ToWrite::new(Vec::new_in(rt.alloc()));
        let done = run(rt.alloc(), &mut source, &mut sink);
        let stops = failing >= 1 && failing <= 46;
        let (want, output) = if stops {
            (Err(Fault::Read), b"".as_slice())
        } else {
            (Ok(()), OUTPUT.as_slice())
        };
        assert_eq!(rt; done, want, "at {failing}");
        assert_eq!(rt; source.faults() == 1, stops);
        assert_eq!(rt; sink.into_inner().as_slice(), output);
    }
}

#[test]
fn stops_on_a_failed_write() { let rt = HostRuntime;
    for (step, calls) in [(1, 54), (3, 18)] {
        for failing in 0..calls + 2 {
            let mut sink = taking(rt.alloc(), step, failing);
            let done = run(rt.alloc(), &mut FromRead::new(INPUT.as_slice()), &mut sink);
            let stops = failing >= 1 && failing <= calls;
            assert_eq!(rt; done == Err(Fault::Write), stops, "at {failing}");
            assert_eq!(rt; done == Ok(()), !stops, "at {failing}");
            assert_eq!(rt; sink.faults() == 1, stops);
            assert_eq!(rt; sink.flushes == 1, !stops);
            assert!(rt; OUTPUT.starts_with(sink.taken.as_slice()));
            assert!(rt; step == 3 || !stops || sink.taken.len() as u64 + 1 == failing);
            assert!(rt; stops || sink.taken.len() == 54);
        }
    }
}

#[test]
fn stops_past_the_longest_input() { let rt = HostRuntime;
    for (block, left, want, output) in [
        (&[b'x'; 65536], 16777216, Ok(()), b"bad line\n".as_slice()),
        (&[b'x'; 65536], 16777217, Err(Fault::Read), b"".as_slice()),
        (&[b'\n'; 65536], u64::MAX, Err(Fault::Read), b"".as_slice()),
    ] {
        let mut source = Many { block, left };
        let mut sink = ToWrite::new(Vec::new_in(rt.alloc()));
        let done = run(rt.alloc(), &mut source, &mut sink);
        assert_eq!(rt; done, want, "of {left}");
        assert_eq!(rt; sink.into_inner().as_slice(), output);
        assert!(rt; left.saturating_sub(source.left) <= 16777216 + 65536);
    }
}

/// Runs into a writer that fails at the call of number `failing`: the result, the sink's failed calls, and the writer.
fn into_sink(rt: &HostRuntime, failing: u64) -> (Result<(), Fault>, u64, FailingWriter) {
    let mut sink = failing_at(rt.alloc(), failing);
    let done = run(rt.alloc(), &mut FromRead::new(INPUT.as_slice()), &mut sink);
    (done, sink.faults(), sink.into_inner())
}

#[test]
fn stops_on_the_first_error_of_a_reader() { let rt = HostRuntime;
    let mut source = FromRead::new(FailingReader {
        left: INPUT,
        calls: 0,
    });
    let mut sink = ToWrite::new(Full);
    let done = run(rt.alloc(), &mut source, &mut sink);
    equal(&rt, done, Err(Fault::Read));
    equal(&rt, (source.faults(), sink.faults()), (1, 0));
    equal(&rt, source.into_inner().calls, 1);
}

#[test]
fn stops_on_a_writer_that_takes_nothing() { let rt = HostRuntime;
    let mut sink = ToWrite::new(Full);
    let done = run(rt.alloc(), &mut FromRead::new(b"\n".as_slice()), &mut sink);
    equal(&rt, (done, sink.faults()), (Err(Fault::Write), 1));
}

#[test]
fn stops_on_the_first_error_of_a_writer() { let rt = HostRuntime;
    for (failing, output) in [(1, 0), (2, 54)] {
        let (done, faults, writer) = into_sink(&rt, failing);
        equal(
            &rt,
            (done, faults, writer.calls),
            (Err(Fault::Write), 1, failing),
        );
        equal(&rt, writer.taken.as_slice(), &OUTPUT[..output]);
    }
    let (done, faults, writer) = into_sink(&rt, 3);
    equal(&rt, (done, faults, writer.calls), (Ok(()), 0, 2));
    equal(&rt, writer.taken.as_slice(), OUTPUT.as_slice());
}

#[test]
fn prints_faults() -> Result<(), Fail> { let rt = HostRuntime;
    for (fault, want) in [
        (Fault::Read, "fault: read"),
        (Fault::Write, "fault: write"),
        (Fault::Memory, "fault: memory"),
    ] {
        equal(&rt, fault.to_string(rt.alloc())?.as_str(), want);
    }
    Ok(())
}

/// The words of a line.
fn words_in(rt: &HostRuntime, line: &str) -> Result<Vec<String>, Fail> {
    let mut words = Vec::new_in(rt.alloc());
    for word in line.split(' ') {
        words.push(String::from_str(rt.alloc(), word)?)?;
    }
    Ok(words)
}

const PUBLIC: Plan<'static> = Plan::CopyPub {
    input: "in",
    output: "out",
};

const PRIVATE: Plan<'static> = Plan::CopyPriv {
    input: "in",
    output: "out",
};

#[test]
fn plans() -> Result<(), Fail> { let rt = HostRuntime;
    equal(&rt, plan_of(behind_name(&[])), Plan::Lines);
    for (line, want) in [
        ("program", Plan::Lines),
        ("program ", Plan::Usage),
        ("program copy", Plan::Usage),
        ("program copy pub in", Plan::Usage),
        ("program copy pub in out", PUBLIC),
        ("program copy priv in out", PRIVATE),
        ("program copy pss in out", Plan::Usage),
        ("program move pub in out", Plan::Usage),
        ("program copy pub in out more", Plan::Usage),
    ] {
        let words = words_in(&rt, line)?;
        equal(&rt, plan_of(behind_name(words.as_slice())), want);
    }
    Ok(())
}

#[test]
fn exits() { let rt = HostRuntime;
    for (plan, ok, want) in [
        (Plan::Lines, true, 0),
        (Plan::Lines, false, 1),
        (PUBLIC, true, 0),
        (PUBLIC, false, 1),
        (PRIVATE, true, 0),
        (PRIVATE, false, 1),
        (Plan::Usage, true, 2),
        (Plan::Usage, false, 2),
    ] {
        equal(&rt, status(&plan, ok), want);
    }
}
