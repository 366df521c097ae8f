//! The auditor: each of its answers, their order, and its lines.

use straight::{audit, audit_lines, Verdict, ENTRY, MOST_ENTRIES, READ_ENTRY, WRITE_ENTRY};

/// The bits of 1 millimetre, both lengths of every card here.
const ONE: u32 = 1_065_353_216;

type Entry = [u32; ENTRY];

/// A write of value 20.
fn w(crew: u32, bearing: u32, origin: u32, vector: [u32; 4]) -> Entry {
    let [e0, e1, e2, e3] = vector;
    [WRITE_ENTRY, crew, bearing, 20, ONE, ONE, origin, e0, e1, e2, e3]
}

/// A read of the version that such a write makes.
fn r(crew: u32, bearing: u32, origin: u32, vector: [u32; 4]) -> Entry {
    let mut entry = w(crew, bearing, origin, vector);
    entry[0] = READ_ENTRY;
    entry
}

/// A read that finds nothing.
fn unwritten(crew: u32, bearing: u32) -> Entry {
    [READ_ENTRY, crew, bearing, 0, 0, 0, 0, 0, 0, 0, 0]
}

/// An entry with one of its words changed.
fn with(entry: Entry, at: usize, word: u32) -> Entry {
    let mut changed = entry;
    changed[at] = word;
    changed
}

fn verdict(history: &[Entry]) -> Verdict {
    let words = history.concat();
    let by_words = audit(&words);
    assert_eq!(audit_lines(spelt(history).as_bytes()), told(by_words), "the lines say the same");
    by_words
}

/// A history as lines. Kinds that are neither write nor read have no letter; they are not given here.
fn spelt(history: &[Entry]) -> String {
    let mut text = String::new();
    for entry in history {
        text += if entry[0] == WRITE_ENTRY { "W" } else { "R" };
        for word in &entry[1..] {
            text += &format!(" {}", word);
        }
        text += "\n";
    }
    text
}

fn told(verdict: Verdict) -> String {
    match verdict {
        Verdict::Refused(at) => format!("refused {}\n", at),
        Verdict::Circle(at) => format!("circle {}\n", at),
        Verdict::Low(at) => format!("low {}\n", at),
        Verdict::Causal => "causal\n".to_string(),
        Verdict::TooMany | Verdict::BadLength => panic!("{:?}", verdict),
    }
}

#[test]
fn lengths() {
    assert_eq!((MOST_ENTRIES, ENTRY), (256, 11));
    assert_eq!(audit(&[]), Verdict::Causal);
    for short in 1..11 {
        assert_eq!(audit(&vec![0; short]), Verdict::BadLength);
    }
    assert_eq!(audit(&[0; 12]), Verdict::BadLength, "before a bad kind");
    assert_eq!(audit(&[0; 11]), Verdict::Refused(0));
    let full = vec![unwritten(3, 1); 256].concat();
    assert_eq!(audit(&full), Verdict::Causal);
    assert_eq!(audit(&full[1..]), Verdict::BadLength);
    assert_eq!(audit(&[&full[..], &[2]].concat()), Verdict::TooMany, "before a bad length");
    assert_eq!(audit(&[0; 257 * 11]), Verdict::TooMany, "before a bad entry");
}

#[test]
fn kinds() {
    for kind in [0, 3, u32::MAX] {
        let history = [w(0, 1, 0, [1, 0, 0, 0]), with(unwritten(0, 1), 0, kind), with(unwritten(0, 1), 0, kind)];
        assert_eq!(audit(&history.concat()), Verdict::Refused(1), "kind {}", kind);
    }
}

#[test]
fn refused_writes() {
    let good = w(0, 1, 3, [0, 0, 0, 1]);
    assert_eq!(verdict(&[good]), Verdict::Causal);
    assert_eq!(verdict(&[w(0, 1, 4, [1, 1, 1, 1])]), Verdict::Refused(0), "an origin over 3");
    assert_eq!(verdict(&[w(0, 1, u32::MAX, [1, 1, 1, 1])]), Verdict::Refused(0));
    assert_eq!(verdict(&[good, w(0, 1, 2, [1, 1, 0, 1])]), Verdict::Refused(1), "stamp 0");
    assert_eq!(verdict(&[w(0, 1, 2, [0; 4])]), Verdict::Refused(0), "all 0: a write is never unwritten");

    let twin = with(with(with(good, 1, 7), 3, 21), 4, 0);
    assert_eq!(verdict(&[unwritten(0, 5), good, unwritten(0, 5), twin]), Verdict::Refused(1), "either of two twins counts");
    for (at, word) in [(2, 2), (6, 2), (7, 1), (8, 1), (9, 0), (10, 2)] {
        let write = w(0, 1, 3, [0, 0, 1, 1]);
        assert_eq!(verdict(&[write, with(write, at, word)]), Verdict::Causal, "word {} tells them apart", at);
    }
    let any = [WRITE_ENTRY, u32::MAX, u32::MAX, u32::MAX, u32::MAX, u32::MAX, 0, u32::MAX, u32::MAX, u32::MAX, u32::MAX];
    assert_eq!(verdict(&[any]), Verdict::Causal, "nothing else is asked of a write");
}

#[test]
fn refused_reads() {
    let write = w(0, 1, 0, [1, 0, 0, 0]);
    let good = r(1, 1, 0, [1, 0, 0, 0]);
    assert_eq!(verdict(&[good]), Verdict::Refused(0), "nobody wrote it");
    assert_eq!(verdict(&[write, good]), Verdict::Causal);
    assert_eq!(verdict(&[good, write]), Verdict::Causal, "the write may be named after it");
    for at in 2..ENTRY {
        let other = with(good, at, good[at] + 1);
        assert_eq!(verdict(&[write, other]), Verdict::Refused(1), "word {} differs", at);
    }
    assert_eq!(verdict(&[write, with(good, 1, 99)]), Verdict::Causal, "any crew reads it");
    assert_eq!(verdict(&[good, good]), Verdict::Refused(0), "a read is no write");

    let hidden = [READ_ENTRY, 1, 1, 77, 0, u32::MAX, 9, 0, 0, 0, 0];
    assert_eq!(verdict(&[hidden]), Verdict::Causal, "of an unwritten read only the bearing counts");
}

/// Two writes of one version and a read: the writes are bad, and the read if neither has its value and card.
#[test]
fn reads_with_two_writes() {
    let write = w(0, 1, 0, [1, 0, 0, 0]);
    let other = with(write, 3, 21);
    let read = r(1, 1, 0, [1, 0, 0, 0]);
    for twins in [[write, other], [other, write]] {
        assert_eq!(verdict(&[read, twins[0], twins[1]]), Verdict::Refused(1));
        assert_eq!(verdict(&[with(read, 3, 21), twins[0], twins[1]]), Verdict::Refused(1));
        assert_eq!(verdict(&[with(read, 3, 22), twins[0], twins[1]]), Verdict::Refused(0));
    }
    // The value of one and the card of the other.
    assert_eq!(verdict(&[with(read, 3, 21), write, with(other, 4, 1)]), Verdict::Refused(0));
    // A bad write is a write all the same.
    assert_eq!(verdict(&[r(1, 1, 4, [1, 0, 0, 0]), w(0, 1, 4, [1, 0, 0, 0])]), Verdict::Refused(1));
}

#[test]
fn circles() {
    let (x, y) = ([1, 0, 0, 0], [0, 1, 0, 0]);
    assert_eq!(verdict(&[r(0, 1, 0, x), w(0, 1, 0, x)]), Verdict::Circle(0), "read before it is written");
    assert_eq!(verdict(&[w(0, 1, 0, x), r(0, 1, 0, x)]), Verdict::Causal);
    let two = [r(0, 1, 0, x), w(0, 2, 1, y), r(1, 2, 1, y), w(1, 1, 0, x)];
    assert_eq!(verdict(&two), Verdict::Circle(0), "each reads what the other writes later");
    let beside = [unwritten(7, 9), w(7, 9, 3, [0, 0, 0, 1])];
    assert_eq!(verdict(&[&beside[..], &two].concat()), Verdict::Circle(2), "the first on a circle, not the first");
    let before = [w(0, 3, 0, [2, 0, 0, 0])];
    assert_eq!(verdict(&[&before[..], &two].concat()), Verdict::Circle(1), "what a circle rests on is on none");
    let after = [r(5, 1, 0, x)];
    assert_eq!(verdict(&[&after[..], &two].concat()), Verdict::Circle(1), "nor is what rests on it");
    let low = [w(3, 4, 0, [5, 0, 0, 0]), unwritten(3, 4)];
    assert_eq!(verdict(&low), Verdict::Low(1));
    assert_eq!(verdict(&[&low[..], &two].concat()), Verdict::Circle(2), "a circle goes before a low read");
    let bad = [w(3, 4, 4, [5, 0, 0, 0])];
    assert_eq!(verdict(&[&two[..], &bad].concat()), Verdict::Refused(4), "and a refusal before both");
    // Many crews: each reads what the next one writes after its own read.
    let mut ring = Vec::new();
    for crew in 0..100 {
        ring.push(r(crew, (crew + 1) % 100, 0, x));
        ring.push(w(crew, crew, 0, x));
    }
    assert_eq!(verdict(&ring), Verdict::Circle(0));
    ring[199] = w(100, 99, 0, x);
    assert_eq!(verdict(&ring), Verdict::Causal, "cut in one place");
}

#[test]
fn low_reads() {
    let (first, second) = ([1, 0, 0, 0], [2, 0, 0, 0]);
    let writes = [w(0, 1, 0, first), w(0, 1, 0, second)];
    let history = |reads: &[Entry]| verdict(&[&writes[..], reads].concat());
    assert_eq!(history(&[r(1, 1, 0, first), r(1, 1, 0, second)]), Verdict::Causal);
    assert_eq!(history(&[r(1, 1, 0, second), r(1, 1, 0, first)]), Verdict::Low(3), "its own earlier read");
    assert_eq!(history(&[r(1, 1, 0, second), r(2, 1, 0, first)]), Verdict::Causal, "another crew's read");
    assert_eq!(history(&[r(0, 1, 0, second)]), Verdict::Causal);
    assert_eq!(history(&[r(0, 1, 0, first)]), Verdict::Low(2), "its own write");
    assert_eq!(history(&[unwritten(0, 1), r(0, 1, 0, first)]), Verdict::Low(2), "the first of them");
    assert_eq!(history(&[unwritten(0, 2)]), Verdict::Causal, "another bearing");
    assert_eq!(history(&[unwritten(1, 1)]), Verdict::Causal, "nothing in its past");

    // By way of others: crew 1 reads bearing 1 and writes bearing 2; crew 2 reads that and writes 3; crew 3 reads that.
    let chain = [
        w(0, 1, 0, first),
        r(1, 1, 0, first),
        w(1, 2, 1, [1, 1, 0, 0]),
        r(2, 2, 1, [1, 1, 0, 0]),
        w(2, 3, 2, [1, 1, 1, 0]),
        r(3, 3, 2, [1, 1, 1, 0]),
    ];
    assert_eq!(verdict(&[&chain[..], &[r(3, 1, 0, first), r(3, 2, 1, [1, 1, 0, 0])]].concat()), Verdict::Causal);
    assert_eq!(verdict(&[&chain[..], &[unwritten(3, 1)]].concat()), Verdict::Low(6));
    assert_eq!(verdict(&[&chain[..], &[unwritten(2, 1)]].concat()), Verdict::Low(6));
    assert_eq!(verdict(&[&chain[..], &[unwritten(4, 1)]].concat()), Verdict::Causal);
    assert_eq!(verdict(&[&chain[..], &[unwritten(1, 3)]].concat()), Verdict::Causal, "what rests on it is not its past");
    // The lines of different crews may stand in any order: the past goes by what rests on what.
    let mixed = [chain[3], chain[4], chain[5], unwritten(3, 1), chain[1], chain[2], chain[0]];
    assert_eq!(verdict(&mixed), Verdict::Low(3));
}

/// The order of versions: sums over four entries, then entries from depot 0 on, then origins.
#[test]
fn the_order_over_four_entries() {
    // After its own write of `wrote` a crew reads `found`, which another crew wrote.
    let found_after = |wrote: (u32, [u32; 4]), found: (u32, [u32; 4])| {
        let history = [w(0, 1, wrote.0, wrote.1), w(1, 1, found.0, found.1), r(0, 1, found.0, found.1)];
        verdict(&history)
    };
    let low = Verdict::Low(2);
    assert_eq!(found_after((0, [1, 0, 0, 0]), (1, [0, 5, 0, 0])), Verdict::Causal);
    assert_eq!(found_after((1, [0, 5, 0, 0]), (0, [1, 0, 0, 0])), low, "the greater sum");
    assert_eq!(found_after((3, [0, 0, 0, 2]), (0, [1, 0, 0, 0])), low, "the last entry counts too");
    assert_eq!(found_after((0, [1, 0, 0, 0]), (1, [0, 1, 0, 0])), low, "the first difference");
    assert_eq!(found_after((1, [0, 1, 0, 0]), (0, [1, 0, 0, 0])), Verdict::Causal);
    assert_eq!(found_after((1, [1, 1, 0, 0]), (0, [1, 1, 0, 0])), low, "the higher origin");
    assert_eq!(found_after((0, [1, 1, 0, 0]), (1, [1, 1, 0, 0])), Verdict::Causal);
    assert_eq!(found_after((0, [u32::MAX, 1, 0, 0]), (1, [0, 5, 0, 0])), low, "a sum of 33 bits");
    assert_eq!(found_after((0, [u32::MAX; 4]), (0, [u32::MAX, u32::MAX, u32::MAX, 0])), low, "and of 34");
}

#[test]
fn lines() {
    let write = "W 0 1 20 1065353216 1065353216 0 1 0 0 0";
    let one = |text: &str| audit_lines(text.as_bytes());
    assert_eq!(one(""), "causal\n", "no input at all");
    assert_eq!(one("\n"), "bad line 0\n", "an empty line");
    assert_eq!(one(write), "causal\n", "a last line without its line feed");
    assert_eq!(one(&format!("{}\n", write)), "causal\n");
    assert_eq!(one(&format!("{}\n\n", write)), "bad line 1\n");
    assert_eq!(one(&format!("{}\n{}", write, write)), "refused 0\n");
    assert_eq!(one("R 0 1 -"), "causal\n");
    assert_eq!(one("R 0 1 0 0 0 0 0 0 0 0"), "causal\n", "unwritten in ten numbers");
    assert_eq!(one("R 4294967295 4294967295 -\n"), "causal\n");
    assert_eq!(one(&format!("{}\nR 0 1 -\n", write)), "low 1\n");
    assert_eq!(one(&format!("R{}\n{}\n", &write[1..], write)), "circle 0\n");
    assert_eq!(one("R 0 1 20 1065353216 1065353216 0 1 0 0 0\n"), "refused 0\n");
    assert_eq!(one("W 9999999999 1 20 1 1 0 1 0 0 0\n"), "bad line 0\n");
    let longest = format!("W{}", " 4294967295".repeat(10));
    assert_eq!((one(&longest), longest.len()), ("refused 0\n".to_string(), 111));
    let bad = [
        " ", "W", "R", "w 0 1 20 1 1 0 1 0 0 0", "W 0 1 20 1 1 0 1 0 0", "W 0 1 20 1 1 0 1 0 0 0 0", "W 0 1 -", "R 0 -",
        "R 0 1 - ", "R 0 1 - -", "R 0 1 2", "R - 1 -", "R 0 - -", "R 0 1  -", "R 0 1", "R 0 1 -\r", "R 0 01 -",
        "R 0 4294967296 -", "W 0 1 20 1 1 0 1 0 0 -", "W 0 1 20 1 1 0 1 0 0 00", "W 0 1 20 1 1 0 1 0 0 +1",
        "W 0 1 20 1 1 0 1 0 0 0 ", "K 0 1 -", "WW 0 1 20 1 1 0 1 0 0 0", " R 0 1 -", "R\t0 1 -", "R 0 1 \u{2212}",
        "R 0 1 20 1 1 0 1 0 0 -",
    ];
    for text in bad {
        assert_eq!(one(text), "bad line 0\n", "{:?}", text);
        assert_eq!(one(&format!("{}\n{}\n{}\n", write, text, text)), "bad line 1\n", "{:?}", text);
    }
}

/// More than 256 lines goes before a bad line, and that before what the entries say.
#[test]
fn too_many_lines() {
    let times = |count: usize, text: &str| audit_lines(text.repeat(count).as_bytes());
    assert_eq!(times(256, "R 0 1 -\n"), "causal\n");
    assert_eq!(times(257, "R 0 1 -\n"), "too many\n");
    assert_eq!(times(257, "\n"), "too many\n");
    assert_eq!(times(256, "\n"), "bad line 0\n");
    assert_eq!(audit_lines(("R 0 1 -\n".repeat(256) + "R").as_bytes()), "too many\n", "a last line without its line feed");
    assert_eq!(audit_lines(("R 0 1 -\n".repeat(255) + "R").as_bytes()), "bad line 255\n");
    let bad = "W 0 1 20 1 1 4 1 1 1 1\n";
    assert_eq!(audit_lines((bad.to_string() + "\n").as_bytes()), "bad line 1\n");
    assert_eq!(audit_lines(bad.as_bytes()), "refused 0\n");
}
