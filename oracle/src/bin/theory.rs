//! Random sessions for the theory's search, with the original's answers, as files for the checker.

fn main() {
    horn_oracle::theory::main();
}
