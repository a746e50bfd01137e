//! Stored vectors, of the host end, of the converter and of the journal: standard input to standard output.

fn main() -> std::io::Result<()> {
    reference::streams::on_standard_streams(reference::vectors::run)
}
