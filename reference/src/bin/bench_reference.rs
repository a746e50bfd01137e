//! Bench program: standard input to standard output, switch 0.

fn main() -> std::io::Result<()> {
    reference::streams::on_standard_streams(reference::bench::run)
}
