//! The messages of a run: arrows from where they are sent to where they are taken, and the stretches for which copies are hidden.

use crate::draw::Layers;
use crate::plan::Plan;
use crate::run::Message;
use crate::shapes::{arrow, circle, half, line, numbered, point, stretch};

/// An arrow that would be longer is drawn as its two ends.
const LONG: i32 = 1_100;

/// The arrows of all messages, and the stretches of the copies that were taken.
pub fn messages(layers: &mut Layers, plan: &Plan) {
    // For each lane, until which line a place beside its middle is taken.
    let mut busy: Vec<[usize; 3]> = vec![[0; 3]; 16 * plan.run.sections.len()];
    let mut order: Vec<&Message> = plan.run.messages.iter().filter(|message| plan.asked.filter.draws(message)).collect();
    order.sort_by_key(|message| message.taken.unwrap_or(usize::MAX));
    for message in order {
        travel(layers, plan, message);
        if let (Some(taken), Some(_)) = (message.taken, message.copy) {
            let until = message.shown.unwrap_or(plan.run.sections[message.section].end);
            let lane = 16 * message.section + (4 * message.link.to.0 + message.link.shelf.0) as usize;
            let free = (0..3).find(|&place| busy[lane][place] <= taken).unwrap_or(2);
            busy[lane][free] = until;
            wait(layers, plan, message, taken, [0, 11, -11][free]);
        }
    }
}

/// From where a message was sent to where it was taken.
fn travel(layers: &mut Layers, plan: &Plan, message: &Message) {
    let lanes = plan.lanes(message.section);
    let x1 = lanes.shelf(message.link.from, message.link.shelf);
    let x2 = lanes.shelf(message.link.to, message.link.shelf);
    let (y1, sent_shown) = plan.marks[message.sent];
    let beat = message.copy.is_none();
    let r = if beat { 4 } else { plan.shape.mark };
    let (class, head) = if beat { ("beat", (6.0, "dot")) } else { ("copy", (10.0, "point")) };
    let side = if x2 > x1 { 1 } else { -1 };
    let arrows = &mut layers.arrows;
    let Some(taken) = message.taken else {
        let end = plan.sections[message.section].map_or(y1, |(_, bottom)| bottom);
        if sent_shown && !beat && end - y1 <= LONG {
            *arrows += &line(point((x1 + side * r, y1 + 3)), point((x2, end)), "waiting");
        } else if sent_shown && !beat {
            *arrows += &line(point((x1 + side * r, y1 + 3)), point((x1 + side * (r + 26), y1 + 12)), "waiting");
        }
        return;
    };
    let (y2, taken_shown) = plan.marks[taken];
    let near = y2 - y1 <= LONG;
    if sent_shown && taken_shown && near {
        *arrows += &arrow((x1, y1), (x2, y2), (r, r + 1), class, head);
        return;
    }
    if beat {
        return;
    }
    // The two ends of an arrow that is too long, or whose other end is not shown.
    if sent_shown {
        *arrows += &line(point((x1 + side * r, y1 + 3)), point((x1 + side * (r + 20), y1 + 10)), class);
    }
    if taken_shown {
        *arrows += &arrow((x2 - side * (r + 24), y2 - 9), (x2, y2), (0, r + 1), class, head);
    }
}

/// The stretch for which a copy was taken but hidden, and the mark where it was shown.
fn wait(layers: &mut Layers, plan: &Plan, message: &Message, taken: usize, aside: i32) {
    let Some((bearing, _)) = message.copy else { return };
    let Some((start, end)) = plan.sections[message.section] else { return };
    let x = plan.lanes(message.section).shelf(message.link.to, message.link.shelf) + aside;
    let top = plan.marks[taken].0.max(start);
    let bottom = message.shown.map_or(end, |shown| plan.shown_at(shown));
    let seen = |at: usize| plan.marks[at].1;
    let any = seen(taken) || message.shown.map_or(true, seen) || bottom > top + 34;
    if !any || bottom <= top {
        return;
    }
    let until = message.shown.map_or(String::new(), |shown| format!(" data-to=\"{}\"", shown + 1));
    layers.stretches += &format!(
        "<g class=\"wait\" data-bearing=\"{}\" data-depot=\"{}\" data-from=\"{}\"{}>\n{}</g>\n",
        bearing.0,
        message.link.to.0,
        taken + 1,
        until,
        stretch(plan.shape, x, top, bottom)
    );
    if message.shown.is_some_and(seen) {
        let r = half(plan.shape.mark, bearing.0);
        let (class, inside) = if message.kept { ("green", "green-in") } else { ("lower", "") };
        layers.marks += &numbered(&circle(x, bottom, r, class), x, bottom, inside, bearing.0);
    }
}
