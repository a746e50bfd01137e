//! The program preview: standard input to standard output.

fn main() -> std::io::Result<()> {
    reference::streams::on_standard_streams(reference::preview::run)
}
