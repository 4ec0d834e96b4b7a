//! The programs in examples/, which documents show, are run.
#![cfg(feature = "std")]

use std::path::{Path, PathBuf};
use std::process::{Command, Stdio};

/// What a program prints, if it succeeds, or else its error.
fn run(name: &str, words: &[&Path], input: Option<&Path>) -> Result<String, String> {
    let tests = std::env::current_exe().unwrap();
    let program = tests.parent().and_then(Path::parent).unwrap().join("examples").join(name);
    let mut command = Command::new(program);
    command.args(words).stdin(input.map_or(Stdio::null(), |path| std::fs::File::open(path).unwrap().into()));
    let output = command.output().unwrap();
    let text = |octets: Vec<u8>| String::from_utf8(octets).unwrap();
    if output.status.success() { Ok(text(output.stdout)) } else { Err(text(output.stderr)) }
}

fn key(name: &str) -> PathBuf {
    Path::new(env!("CARGO_MANIFEST_DIR")).join("../ffi/tests/keys").join(name)
}

#[test]
fn the_programs_do_what_they_say() {
    let room = std::env::temp_dir().join(format!("examples-{}", std::process::id()));
    std::fs::create_dir(&room).unwrap();
    let [one, two, three] = ["one", "two", "three"].map(|name| room.join(name));
    let same = |made: &Path, name: &str| assert_eq!(std::fs::read(made).unwrap(), std::fs::read(key(name)).unwrap());

    assert_eq!(run("write_key", &[], None).unwrap(), "[30, 08, 02, 03, 00, c1, 7f, 02, 01, 03]\n");
    assert_eq!(run("bits", &[], Some(&key("pub2.der"))).unwrap(), "2048 bits\n");
    let numbers = std::fs::read_to_string(key("pub2.numbers")).unwrap().to_lowercase();
    assert_eq!(run("modulus", &[&key("pub2.der")], None).unwrap().trim(), numbers.lines().next().unwrap());
    run("make_container", &[&key("priv3.der"), &one], None).unwrap();
    same(&one, "p8_3.der");
    for from in [one, key("priv3.der")] {
        run("open_container", &[&from, &two, &three], None).unwrap();
        same(&two, "priv3.der");
        same(&three, "pub3.der");
    }
    run("make_params", &[&two], None).unwrap();
    let (certificate, made) = (std::fs::read(key("certificate.der")).unwrap(), std::fs::read(&two).unwrap());
    assert!(certificate.windows(made.len()).any(|octets| octets == made));
    std::fs::remove_dir_all(&room).unwrap();
}

#[test]
fn the_algorithm_in_a_certificate() {
    let certificate = key("certificate.der");
    assert_eq!(run("signature_algorithm", &[&certificate], None).unwrap(), "SHA-256, a salt of 32 octets\n");
    let cut_off = std::env::temp_dir().join(format!("cut_off-{}", std::process::id()));
    std::fs::write(&cut_off, &std::fs::read(&certificate).unwrap()[..868]).unwrap();
    let (other, none) = ("PKCS#1 ASN.1 error: ", "no certificate in DER");
    for (file, why) in [(&key("ed25519.der"), other), (&key("pub.pem"), none), (&cut_off, none)] {
        let error = run("signature_algorithm", &[file], None).unwrap_err();
        assert!(error.contains(&format!("{}: {why}", file.display())), "{error}");
    }
    std::fs::remove_file(&cut_off).unwrap();
}
