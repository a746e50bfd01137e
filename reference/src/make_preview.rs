//! A dose on screen first: the text of the stored input of the program preview, one session from its power-on. Each of
//! its lines is one that the program answers or a silent one, so it has no headings.

mod carry_on;
mod doses;
mod drawn;
mod dwells;
mod forms;
mod held_inputs;
mod identification;
mod order;
mod page;
mod session;
mod settle;
mod under_way;
mod watch;

use session::Session;

/// A dose on screen first: the stored input.
pub fn preview_text() -> Vec<u8> {
    let mut session = Session::begun();
    page::examples(&mut session);
    page::printed_session(&mut session);
    order::before_the_start(&mut session);
    order::large_numbers(&mut session);
    order::of_the_start(&mut session);
    order::last_positions(&mut session);
    doses::counts_of_ticks(&mut session);
    doses::each_master(&mut session);
    doses::shares(&mut session);
    doses::slow_doses(&mut session);
    under_way::under_way(&mut session);
    under_way::after_a_stop(&mut session);
    carry_on::carry_on(&mut session);
    dwells::dwells(&mut session);
    dwells::stored_starts(&mut session);
    held_inputs::sensor(&mut session);
    held_inputs::emergency(&mut session);
    held_inputs::limits(&mut session);
    watch::zeroed_by_the_start(&mut session);
    watch::not_zeroed_by_the_trial(&mut session);
    watch::acting_in_the_trial(&mut session);
    settle::settle(&mut session);
    identification::identification(&mut session);
    forms::good_forms(&mut session);
    forms::other_forms(&mut session);
    forms::other_lines(&mut session);
    drawn::drawn_sessions(&mut session);
    session.rest();
    session.each(&["P0000001", "P0180001"]);
    session.ended_by("D 0 300 000000")
}
