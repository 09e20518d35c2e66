//! The plain program beside the proved one of this name: calls become lines.

fn main() -> std::io::Result<()> {
    plain::calls::by_blocks::signals()
}
