//! One call to the model from the command line, its answer in one line: for expectations that are stored elsewhere.

use crate::compare::hex;
use crate::model::builder::build;
use crate::model::distance::tables;
use crate::model::file::{read, ListRooms, Lists};
use crate::model::forward::{run, step, Ask, Packet, Stand};
use crate::model::report::report;
use crate::model::Refusal;

/// Enough for whatever an entry gives.
const AMPLE: usize = 65_536;

/// The model's answer to the call that the words name, or none where they name none. `bytes_of` gives the bytes of a file by its
/// name.
pub fn line(words: &[&str], bytes_of: &dyn Fn(&str) -> Vec<u8>) -> Option<String> {
    let (room, words) = match words {
        ["room", room, rest @ ..] => (room.parse().ok()?, rest),
        _ => (AMPLE, words),
    };
    let (name, words) = words.split_last()?;
    let accepted: Result<String, Refusal> = match words {
        ["read"] => {
            let rooms = ListRooms { a: room, b: room, weights: room, homes: room, rows: room };
            read(&bytes_of(name), &rooms).map(|net| shown_lists(&Lists::of(&net)))
        }
        ["tables"] => tables(&bytes_of(name), room).map(|tables| written("tables", &tables)),
        ["report"] => {
            let shown = |text: String| format!("length {}, text {}", text.len(), text.replace('\n', "\\n"));
            report(&bytes_of(name), room).map(shown)
        }
        ["build", cap] => build(&bytes_of(name), cap.parse().ok()?, room).map(|file| written("file", &file)),
        ["run", source, destination, down @ ..] => {
            let (kind, number) = failure(down)?;
            let (source, destination) = (byte(source)?, byte(destination)?);
            let ask = Ask { source, destination, kind, number, tables_room: room, trail_room: room };
            run(&bytes_of(name), &ask).map(|run| {
                let (stand, kind) = (stand(run.stand), run.kind.unwrap_or('-'));
                let value = format!("{stand}, hops {}, topology {}, kind {kind}", run.hops, run.topology);
                format!("{value}, trail {}, tables {}", numbers(&run.trail), hex(&run.tables))
            })
        }
        ["step", place, destination, topology, down @ .., tables] => {
            let (kind, number) = failure(down)?;
            let (place, destination, topology) = (byte(place)?, byte(destination)?, byte(topology)?);
            let packet = Packet { place, destination, topology };
            step(&bytes_of(name), &bytes_of(tables), packet, kind, number).map(|step| {
                let (stand, kind) = (stand(step.stand), step.kind.unwrap_or('-'));
                let Packet { place, destination, topology } = step.packet;
                format!("{stand}, kind {kind}, place {place}, destination {destination}, topology {topology}")
            })
        }
        _ => return None,
    };
    Some(match accepted {
        Ok(shown) => format!("accepted: {shown}"),
        Err((number, place)) => format!("refused {number} at {place}"),
    })
}

/// An argument that the C entries take as one byte.
fn byte(word: &str) -> Option<usize> {
    word.parse().ok().map(|byte: u8| byte as usize)
}

/// What is down, as the C entries take it.
fn failure(words: &[&str]) -> Option<(u8, u16)> {
    match words {
        ["none"] => Some((0, 0)),
        ["link", number] => Some((1, number.parse().ok()?)),
        ["node", number] => Some((2, number.parse().ok()?)),
        _ => None,
    }
}

fn stand(stand: Stand) -> &'static str {
    match stand {
        Stand::Moved => "moved",
        Stand::Delivered => "delivered",
        Stand::Dropped => "dropped",
    }
}

fn written(name: &str, bytes: &[u8]) -> String {
    format!("length {}, {name} {}", bytes.len(), hex(bytes))
}

fn numbers<T: ToString>(list: &[T]) -> String {
    list.iter().map(T::to_string).collect::<Vec<String>>().join(" ")
}

fn shown_lists(lists: &Lists) -> String {
    let counts = format!("n {}, m {}, k {}, wmax {}", lists.n, lists.m, lists.k, lists.wmax);
    let links = format!("a {}, b {}, weights {}", numbers(&lists.a), numbers(&lists.b), numbers(&lists.weights));
    if lists.k == 0 {
        return format!("{counts}, {links}");
    }
    format!("{counts}, {links}, homes {}, rows {}", numbers(&lists.homes), numbers(&lists.rows))
}

#[cfg(test)]
mod tests {
    use super::line;
    use crate::model::file::file_of;
    use crate::model::samples::{full_four, ring, set, triangle};

    /// The files that the tests name.
    fn bytes_of(name: &str) -> Vec<u8> {
        match name {
            "graph" => file_of(&triangle()),
            "set" => set(&triangle(), &[1, 2, 3]),
            "p7" => set(&full_four(), &[1, 1, 2, 2]),
            "p10" => set(&ring(), &[1, 2, 1, 3]),
            _ => vec![1; 80],
        }
    }

    fn answer(words: &str) -> Option<String> {
        let words: Vec<&str> = words.split(' ').collect();
        line(&words, &bytes_of)
    }

    fn answered(words: &str) -> String {
        answer(words).expect("the words name a call")
    }

    #[test]
    fn each_entry_in_one_line() {
        let read =
            "accepted: n 3, m 3, k 3, wmax 3, a 0 0 1, b 1 2 2, weights 1 3 1, homes 1 2 3, rows 0 0 1 0 3 0 1 0 0";
        assert_eq!(answered("read set"), read);
        assert_eq!(answered("read graph"), "accepted: n 3, m 3, k 0, wmax 3, a 0 0 1, b 1 2 2, weights 1 3 1");
        assert_eq!(answered("build 3 graph"), answered("build 32 graph"));
        assert!(answered("build 3 graph").starts_with("accepted: length 65, file 4e570300030300034c4b"));
        assert!(answered("tables set").starts_with("accepted: length 45, tables 000101"));
        assert!(answered("report set").ends_with("2 1 1 D 3 0 2 1\\ndetections 6\\n"));
        let run = "accepted: dropped, hops 1, topology 1, kind D, trail 0 3, tables 00010203";
        assert!(answered("run 0 2 node 2 p7").starts_with(run));
        let step = "accepted: moved, kind -, place 1, destination 2, topology 0";
        assert_eq!(answered("step 0 2 0 none tables p10"), step);
    }

    #[test]
    fn refusals_and_rooms() {
        for words in ["read p10", "room 0 read p10", "tables p10", "report p10", "build 0 p10", "run 9 9 node 9 p10"] {
            assert_eq!(answered(words), "refused 7 at 1");
        }
        assert_eq!(answered("step 0 2 0 link 4 tables p10"), "refused 11 at 0");
        assert_eq!(answered("tables graph"), "refused 13 at 0");
        assert_eq!(answered("build 3 set"), "refused 13 at 0");
        assert_eq!(answered("room 44 tables set"), "refused 14 at 0");
        assert!(answered("room 45 tables set").starts_with("accepted"));
        for words in ["", "check set", "read", "build set", "run 0 1 set", "run 0 256 none set", "room read set"] {
            assert_eq!(answer(words), None, "{words}");
        }
    }
}
