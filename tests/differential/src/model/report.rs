//! The report's text.

use super::distance::tables_of;
use super::forward::{forwarded, to_the_end, Failure, Packet, Stand};
use super::rules::sound_set;
use super::{Network, Refusal, MOST_NODES};

const FIRST_LINE: &str = "node via dest kind topology next hops extra\n";

/// The last line where n is 32: 10 letters, a space, the 3 digits of 992 and the line feed.
const LONGEST_LAST_LINE: usize = 10 + 1 + 3 + 1;

/// The six numbers before extra have at most two digits each: nodes go up to 31, topologies up to 32, and the hops are at most
/// n - 1 = 31, since neither a path in one topology nor an alternate's way passes a node twice. Extra, a difference of hops, has
/// at most two digits and a minus sign. Then the kind's letter, seven spaces and the line feed: 24 bytes.
const LONGEST_LINE: usize = 6 * 2 + 3 + 1 + 7 + 1;

/// Room that is enough for every report: the first line's 44 bytes, 32 × 31 lines of 24, and the last line's 15 are 23,867. No
/// report is quite so long, since not all its numbers have two digits.
pub const LONGEST_REPORT: usize = FIRST_LINE.len() + MOST_NODES * (MOST_NODES - 1) * LONGEST_LINE + LONGEST_LAST_LINE;

/// The report's text: 1 to 8, 13, 14.
///
/// Reading: every line, the last too, ends with a line feed. Room is too short where it is under this report's length
/// ("exactly where a lent list or buffer is under what it is to hold").
pub fn report(file: &[u8], room: usize) -> Result<String, Refusal> {
    let net = sound_set(file)?;
    let tables = tables_of(&net);
    let mut text = String::from(FIRST_LINE);
    for node in 0..net.n {
        for destination in (0..net.n).filter(|&t| t != node) {
            text += &line(&net, &tables, node, destination);
        }
    }
    text += &format!("detections {}\n", net.n * (net.n - 1));
    if room < text.len() {
        return Err((14, 0));
    }
    Ok(text)
}

/// One line: what the detecting node does when the link to its next hop is down.
///
/// Reading: 02 names a sign only for what is below zero. So extra has no sign where it is 0 or above; the minus is one ASCII
/// hyphen, next to the digits; and 01's "or 0 where the backup path is no longer" is gone, since a path as long as the other
/// has 0 by the difference itself.
fn line(net: &Network, tables: &[u8], node: usize, destination: usize) -> String {
    let via = tables[node * net.n + destination] as usize;
    let link = net.link_between(node, via).expect("a next hop is a neighbour");
    let down = Failure::Link(link);
    let packet = Packet { place: node, destination, topology: 0 };
    let change = forwarded(net, tables, packet, down).expect("a set's own tables name neighbours");
    let kind = change.kind.expect("with one link down the detecting node changes the topology");
    let backup = to_the_end(net, tables, node, destination, down);
    assert_eq!(backup.stand, Stand::Delivered, "one failed link is always gone around");
    let usual = to_the_end(net, tables, node, destination, Failure::Nothing).hops;
    let (topology, next, hops) = (change.packet.topology, change.packet.place, backup.hops);
    // 02, request a: "a signed count, backup hops minus hops in topology 0, printed with a minus sign where it is below zero".
    let extra = hops as i32 - usual as i32;
    format!("{node} {via} {destination} {kind} {topology} {next} {hops} {extra}\n")
}
