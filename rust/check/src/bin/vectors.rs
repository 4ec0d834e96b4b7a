//! Answers the worked rows on standard input.

fn main() -> std::io::Result<()> {
    check::programs::pkcs1_vectors::main(check::rattle_std::prelude::HostRuntime)
}
