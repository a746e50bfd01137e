//! A dose on screen first: W lines whose blocks are still to come. The trial's own ticks print none, and the block
//! comes in its own time behind it.

use super::session::Session;

/// A dose on screen first: tries of fewer and of more ticks than the block needs, at rest and in a dwell; replaced and
/// silent W lines.
pub(super) fn settle(session: &mut Session) {
    session.rest();
    session.each(&["P0000005", "W0ABCDEF7", "T 1000 000010", "D 0 5000 000020", "T 1499 000010"]);
    session.each(&["D 0 1 000020", "q08", "D 0 2500 000020", "T 1 000030", "D 0 2500 000020"]);
    session.each(&["W0", "D 0 2499 000001", "W0000000A", "D 0 2500 000002", "T 2500 000003", "T 2500 000004"]);
    session.each(&["W0", "D 0 3000 000001", "W4", "D 0 3000 000002", "T 2500 000003"]);
    session.each(&["P0A00004", "W0FF00FFB", "Q080", "D 0 3000 000001", "T 480 000000", "D 0 3000 000001", "Q088"]);
    session.each(&["T 2019 000005", "D 0 3000 000001", "D 0 0 FFFFFF", "T 1 000006", "q0800000C"]);
}
