//! The plain program beside the proved one of this name: lists become tables.

fn main() -> std::io::Result<()> {
    plain::run::by_blocks::run()
}
