//! The plain program beside the proved one of this name: a recording becomes its listing.

fn main() -> std::io::Result<()> {
    plain::listing::by_blocks::list()
}
