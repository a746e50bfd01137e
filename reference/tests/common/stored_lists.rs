//! The stored lists, each with the heading that it stands under.

use super::followed::Followed;
use reference::lists::{Call, List};
use reference::make_lists::lists_text;
use reference::{Machine, TickAnswer};

/// Every list that an `E` line plays, under the heading before its `S` line.
pub fn stored_lists() -> Vec<(String, List)> {
    let (mut list, mut heading, mut words) = (List::default(), String::new(), String::new());
    let mut lists = Vec::new();
    for line in lists_text().lines() {
        if let Some(text) = line.strip_prefix("# ") {
            heading = text.to_string();
        }
        if line.starts_with("S ") {
            words.clone_from(&heading);
        }
        if line == "E" {
            lists.push((words.clone(), list.clone()));
        } else {
            list.take_line(line.as_bytes());
        }
    }
    lists
}

/// The one list whose heading begins so.
pub fn stored_list(begins: &str) -> List {
    let mut lists = stored_lists();
    lists.retain(|(words, _)| words.starts_with(begins));
    assert_eq!(lists.len(), 1, "{begins}");
    lists.remove(0).1
}

/// A list goes to a controller of its first switch; what each tick answers, and the controller at each `R`.
pub fn played(list: &List, mut ticked: impl FnMut(TickAnswer), mut read: impl FnMut(&Machine)) {
    let mut machine = Machine::power_on(list.first).0;
    for &call in &list.calls {
        match call {
            Call::Byte { byte, lent } => {
                machine.byte(byte, &mut vec![0; lent as usize]);
            }
            Call::Ticks { count, word } => (0..count).for_each(|_| ticked(machine.tick(word, &mut [0; 120]))),
            Call::Tick { word, lent } => ticked(machine.tick(word, &mut vec![0; lent as usize])),
            Call::Readings => read(&machine),
        }
    }
}

/// A list goes to a controller of its first switch and is followed from its answers; what is known after each tick.
pub fn followed_by_ticks(list: &List, mut ticked: impl FnMut(&Followed)) -> Followed {
    let mut machine = Machine::power_on(list.first).0;
    let mut followed = Followed::default();
    for &call in &list.calls {
        let (count, word, lent) = match call {
            Call::Byte { byte, lent } => {
                followed.byte(&mut machine, byte, lent as usize);
                continue;
            }
            Call::Ticks { count, word } => (count, word, 120),
            Call::Tick { word, lent } => (1, word, lent as usize),
            Call::Readings => continue,
        };
        for _ in 0..count {
            followed.tick(&mut machine, word, lent);
            ticked(&followed);
        }
    }
    followed
}

/// A list goes to a controller of its first switch and is followed from its answers.
pub fn followed(list: &List) -> Followed {
    followed_by_ticks(list, |_| {})
}
