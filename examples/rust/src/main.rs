//! A phone attaches, by the library: what examples/c/attach.c does, in Rust. Prints each message to the MME and each that it
//! answers, in hex, and ends with status 0 where every answer is the one that is expected.

mod soizkadur;

use soizkadur::{Mme, Refused, ATTACHED};
use std::process::ExitCode;

/// The network, a subscriber and an authentication vector for it, as lines of a trace (README.md, "A trace").
const PROVISIONING: &str = "mme 001 01 8001 01 internet 1000000000 1000000000
sub 001010000000001 0a000001 0a000064 00000001
vec 001010000000001 000102030405060708090a0b0c0d0e0f 101112131415161718191a1b1c1d1e1f 2021222324252627 \
303132333435363738393a3b3c3d3e3f404142434445464748494a4b4c4d4e4f
";
const IMSI: &str = "001010000000001";

/// What station 0 sends, and what the MME answers: the octets of tests/rows/attach_whole, made from the standards.
struct Step {
    name: &'static str,
    sent: &'static str,
    answers: &'static [&'static str],
}

const STEPS: [Step; 6] = [
    Step {
        name: "S1 SETUP REQUEST",
        sent: "0011001f000003003b00080000f11000000010004000070000004000f1100089400140",
        answers: &["201100170000020069000b000000f11000008001000100574001ff"],
    },
    Step {
        name: "INITIAL UE MESSAGE with ATTACH REQUEST",
        sent: "000c403e000005000800020001001a00161507417108091010000000001002e06000040201d011004300060000f1100001006440\
              080000f110000010100086400130",
        answers: &["000b4038000003000000020001000800020001001a002524075200000102030405060708090a0b0c0d0e0f101011121314151617\
                  18191a1b1c1d1e1f"],
    },
    Step {
        name: "UPLINK NAS TRANSPORT with AUTHENTICATION RESPONSE",
        sent: "000d4035000005000000020001000800020001001a000c0b0753082021222324252627006440080000f110000010100043400600\
              00f1100001",
        answers: &["000b4021000003000000020001000800020001001a000e0d376aac569000075d020002e060"],
    },
    Step {
        name: "UPLINK NAS TRANSPORT with SECURITY MODE COMPLETE",
        sent: "000d4032000005000000020001000800020001001a0009084719641fc200075e006440080000f11000001010004340060000f110\
              0001",
        answers: &["00090080970000060000000200010008000200010042000a183b9aca00603b9aca000018004900003400444500093c0f800a0000\
                  640000000135279009ec670107420149060000f110000100155201c101090908696e7465726e657405010a000001500bf600f110\
                  80010100000001006b000518000c0000004900200b32766850f0463fb5cbf377484df6ef28934aee6ee5cc93d19e03bb9742a76d"],
    },
    Step {
        name: "INITIAL CONTEXT SETUP RESPONSE",
        sent: "200900220000030000400200010008400200010033400f000032400a0a1fc0a8000000000001",
        answers: &[],
    },
    Step {
        name: "UPLINK NAS TRANSPORT with ATTACH COMPLETE",
        sent: "000d4037000005000000020001000800020001001a000e0d2740af7a0901074300035200c2006440080000f11000001010004340\
              060000f1100001",
        answers: &[],
    },
];

fn octets_of(text: &str) -> Vec<u8> {
    (0..text.len()).step_by(2).map(|at| u8::from_str_radix(&text[at..at + 2], 16).expect("hex")).collect()
}

fn hex_of(octets: &[u8]) -> String {
    octets.iter().map(|octet| format!("{octet:02x}")).collect()
}

/// Whether the MME answers each message as it should, and the phone is attached at the end.
fn attaches() -> Result<bool, Refused> {
    let mut mme = Mme::from_lines(PROVISIONING)?;
    mme.up(0)?;
    for step in &STEPS {
        println!("{}\n  -> {}", step.name, step.sent);
        let answers: Vec<String> = mme
            .receive(0, &octets_of(step.sent))?
            .iter()
            .filter(|out| out.station == 0)
            .map(|out| hex_of(&out.octets))
            .collect();
        answers.iter().for_each(|answer| println!("  <- {answer}"));
        if answers != step.answers {
            eprintln!("another answer than expected: {}", step.name);
            return Ok(false);
        }
    }
    Ok(mme.states(IMSI)? == ATTACHED)
}

fn main() -> ExitCode {
    match attaches() {
        Ok(true) => {
            println!("registered, connected, and its bearer is active");
            ExitCode::SUCCESS
        }
        Ok(false) => ExitCode::FAILURE,
        Err(refused) => {
            eprintln!("{refused}");
            ExitCode::FAILURE
        }
    }
}
