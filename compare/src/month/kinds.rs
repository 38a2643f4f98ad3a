//! Kinds of counted listings and of joins that a run must have met. They are read from the call itself, not from how it was
//! drawn.

use super::case::{Case, Join};
use super::draw::NUMBERS;
use super::model::{Outcome, Report, LAYOUTS, MOST, MOST_LAYOUTS, PAIRS, REFUSALS, WORDS};
use crate::listings::layout::Call;
use crate::listings::lent::Old;
use crate::listings::score::CLASSES;
use crate::met::Met;

/// Only a full run lists as many pairs as there can be.
pub fn of_calls(full: bool) -> Met<Case> {
    let mut kinds = Met::new();
    of_refusals(&mut kinds);
    of_accepted(&mut kinds);
    of_traces(&mut kinds);
    of_words(&mut kinds);
    of_rooms(&mut kinds);
    if full {
        kinds.add("as many pairs as there can be", |c: &Case| {
            c.is_accepted() && c.pairs == 1 << 24
        });
        kinds.add("4096 vertices each, half of the pairs passed over", |c| {
            c.is_accepted() && c.over == 1 << 23
        });
    }
    kinds
}

fn of_refusals(kinds: &mut Met<Case>) {
    for number in NUMBERS {
        let name = |what: &str| format!("refused with {number}, {what}");
        kinds.add(name("the first layout"), move |c: &Case| {
            c.is_refused(number) && *c.report() == Report::FRESH
        });
        kinds.add(name("others before it, of this number too"), move |c| {
            c.is_refused(number) && c.report().0[REFUSALS + number as usize] > 0
        });
        kinds.add(name("the 10,000th"), move |c| {
            c.is_refused(number) && c.report().layouts() == MOST_LAYOUTS - 1
        });
        kinds.add(name("its word as large as may be"), move |c| {
            c.is_refused(number) && c.report().0[REFUSALS + number as usize] == MOST
        });
        kinds.add(name("one path lent twice"), move |c| {
            c.is_refused(number) && c.call == Call::Twice
        });
        let name = format!("{number} behind 10,000 layouts");
        kinds.add(name, move |c| {
            c.is_only_for(LAYOUTS) && c.fault == Some(number)
        });
        let name = format!("{number} behind a word that is too large");
        kinds.add(name, move |c| {
            let few = c.report().layouts() < MOST_LAYOUTS;
            c.is_too_full() && few && c.fault == Some(number)
        });
        let name = format!("{number} and too few words");
        kinds.add(name, move |c| {
            c.asked.words < WORDS && c.fault == Some(number)
        });
        let name = format!("{number} and too few counts");
        kinds.add(name, move |c| {
            c.asked.room.counts < 2 && c.fault == Some(number)
        });
    }
    kinds.add("a row too many", |c| {
        c.is_refused(8) && c.asked.rows() + 1 == c.rows
    });
    kinds.add("no room for rows", |c| {
        c.is_refused(8) && c.rows > 1 && c.asked.rows() == 0
    });
    kinds.add("more than 2048 rows, and one too many", |c| {
        c.is_refused(8) && c.rows > 2048 && c.asked.rows() + 1 == c.rows
    });
    kinds.add("more than 2048 rows, and room for none", |c| {
        c.is_refused(8) && c.rows > 2048 && c.asked.rows() == 0
    });
}

fn of_accepted(kinds: &mut Met<Case>) {
    kinds.add("accepted, the first layout", |c: &Case| {
        c.is_accepted() && *c.report() == Report::FRESH && c.pairs > 0
    });
    kinds.add("accepted, one layout before it", |c| {
        c.is_accepted() && c.report().layouts() == 1
    });
    kinds.add("accepted, the 10,000th", |c| {
        c.is_accepted() && c.report().layouts() == MOST_LAYOUTS - 1
    });
    kinds.add("accepted behind 10,000 layouts", |c| {
        c.is_only_for(LAYOUTS) && c.fault.is_none() && c.rows > 0
    });
    for vertices in [[0, 0], [1, 3], [3, 1]] {
        let name = format!("accepted without pairs, {vertices:?} vertices");
        kinds.add(name, move |c| c.is_accepted() && c.vertices == vertices);
    }
    kinds.add("accepted without rows", |c| {
        c.is_accepted() && c.pairs > 0 && c.rows == 0
    });
    kinds.add("each pair makes a row", |c| {
        c.is_accepted() && c.pairs > 1 && c.rows as u64 == c.pairs
    });
    for (class, name) in CLASSES.iter().enumerate() {
        kinds.add(format!("class {name}, and no other"), move |c| {
            c.adds_to_class(class) && c.classes[class] == c.pairs
        });
        kinds.add(format!("class {name} among others"), move |c| {
            c.adds_to_class(class) && c.classes[class] < c.pairs
        });
        kinds.add(
            format!("class {name}, its word as large as may be"),
            move |c| c.adds_to_class(class) && c.class_word(class) == MOST,
        );
    }
    kinds.add("pairs, their word as large as may be", |c| {
        c.is_accepted() && c.pairs > 1 && c.report().0[PAIRS] == MOST
    });
    for rows in [2047, 2048, 2049, 4290] {
        let name = format!("{rows} rows, accepted");
        kinds.add(name, move |c| c.is_accepted() && c.rows == rows);
    }
    for path in 0..2 {
        let name = format!("accepted, path {path} with 4096 vertices");
        kinds.add(name, move |c| c.is_accepted() && c.vertices[path] == 4096);
    }
    kinds.add("accepted, one path lent twice", |c| {
        c.is_accepted() && c.call == Call::Twice && c.rows > 0
    });
    kinds.add("19, one path lent twice", |c| {
        c.is_too_full() && c.call == Call::Twice
    });
    kinds.add("room for rows exact", |c| {
        c.is_accepted() && c.rows > 0 && c.asked.rows() == c.rows
    });
    kinds.add("more room for rows", |c| {
        c.is_accepted() && c.rows > 0 && c.asked.rows() > c.rows
    });
}

fn of_traces(kinds: &mut Met<Case>) {
    let some = |c: &Case| c.is_accepted() && c.over > 0;
    kinds.add("some passed over, some looked at", move |c| {
        some(c) && c.pairs > 0
    });
    kinds.add("some passed over, and rows", move |c| some(c) && c.rows > 0);
    kinds.add("each pair passed over", move |c| some(c) && c.pairs == 0);
    kinds.add("each pair passed over, though some meet", move |c| {
        some(c) && c.pairs == 0 && c.rows_without > 0
    });
    kinds.add("some passed over that meet, and rows", move |c| {
        some(c) && c.rows > 0 && c.rows_without > c.rows
    });
    kinds.add("some passed over, none of which meets", move |c| {
        some(c) && c.rows > 0 && c.rows_without == c.rows
    });
    kinds.add("some passed over, a row too many", |c| {
        c.is_refused(8) && c.over > 0 && c.asked.rows() + 1 == c.rows
    });
}

/// Each word of the report as it is found.
fn of_words(kinds: &mut Met<Case>) {
    for layouts in [0, 1, 9_998, 9_999] {
        let name = format!("{layouts} layouts, all other words as large as may be");
        let largest = Report([MOST; WORDS]).with(LAYOUTS, layouts);
        if layouts > 1 {
            kinds.add(name, move |c: &Case| {
                c.is_counted() && *c.report() == largest
            });
        }
        let name = format!("{layouts} layouts before it");
        kinds.add(name, move |c| {
            c.is_counted() && c.report().layouts() == layouts
        });
    }
    for layouts in [10_000, 10_001, 1 << 32, 1 << 63, u64::MAX] {
        let name = format!("19 for {layouts} layouts only");
        kinds.add(name, move |c| {
            c.is_only_for(LAYOUTS) && c.report().layouts() == layouts
        });
    }
    for word in LAYOUTS + 1..WORDS {
        for value in [MOST - 1, MOST] {
            let name = format!("word {word} at {value}");
            kinds.add(name, move |c| c.is_counted() && c.report().0[word] == value);
        }
        for value in [MOST + 1, u64::MAX] {
            for [accepted, name] in [["yes", "accepted"], ["", "refused"]] {
                let name = format!("19 for word {word} only, {value}, else {name}");
                let accepted = !accepted.is_empty();
                kinds.add(name, move |c| {
                    let is = c.report().0[word] == value;
                    c.is_only_for(word) && is && c.fault.is_none() == accepted
                });
            }
        }
    }
    kinds.add("19 for each word", |c| {
        c.is_too_full() && c.report().0.iter().all(|word| *word > MOST)
    });
}

fn of_rooms(kinds: &mut Met<Case>) {
    let no_room = |c: &Case| c.outcome == Outcome::NoRoom;
    for words in [0, 1, 39] {
        kinds.add(format!("{words} words"), move |c: &Case| {
            no_room(c) && c.asked.words == words && c.asked.room.counts >= 2
        });
        kinds.add(
            format!("{words} words of a report that is too full"),
            move |c| {
                let full = c.report().is_too_full();
                no_room(c) && c.asked.words == words && full && c.asked.room.counts >= 2
            },
        );
    }
    for words in [40, 41, 42, 80] {
        kinds.add(format!("{words} words, accepted"), move |c| {
            c.is_accepted() && c.asked.words == words
        });
        kinds.add(format!("{words} words, refused"), move |c| {
            c.is_counted() && !c.is_accepted() && c.asked.words == words
        });
        kinds.add(format!("{words} words, 19"), move |c| {
            c.is_too_full() && c.asked.words == words
        });
    }
    for counts in 0..5 {
        kinds.add(format!("room for {counts} counts"), move |c| {
            let words = c.asked.words >= WORDS;
            words && c.asked.room.counts == counts && !c.report().is_too_full()
        });
        kinds.add(format!("room for {counts} counts, too full"), move |c| {
            let words = c.asked.words >= WORDS;
            words && c.asked.room.counts == counts && c.report().is_too_full()
        });
    }
    kinds.add("neither room for counts nor for words", move |c| {
        no_room(c) && c.asked.room.counts < 2 && c.asked.words < WORDS
    });
    for (name, is) in olds() {
        kinds.add(name, move |c| is(c.asked.old));
    }
}

fn olds() -> [(&'static str, fn(Old) -> bool); 3] {
    [
        ("old contents NaNs", |old| old == Old::Nans),
        ("old contents zeros", |old| old == Old::Zeros),
        ("old contents random", |old| matches!(old, Old::Bits(_))),
    ]
}

pub fn of_joins() -> Met<Join> {
    let mut kinds = Met::new();
    for layouts in [
        [9_999, 1],
        [10_000, 0],
        [0, 10_000],
        [1, 9_999],
        [5_000, 5_000],
    ] {
        let name = format!("layouts {layouts:?}, joined");
        kinds.add(name, move |j: &Join| {
            j.is_joined() && j.both(LAYOUTS) == layouts
        });
    }
    for layouts in [
        [10_000, 1],
        [9_999, 2],
        [1, 10_000],
        [0, 10_001],
        [10_001, 0],
        [5_000, 5_001],
        [u64::MAX, 1],
        [1, u64::MAX],
        [1 << 63, 1 << 63],
    ] {
        let name = format!("layouts {layouts:?}, refused for them only");
        kinds.add(name, move |j| {
            j.is_refused() && j.is_only_for(LAYOUTS) && j.both(LAYOUTS) == layouts
        });
    }
    for word in LAYOUTS + 1..WORDS {
        of_joined_word(&mut kinds, word);
    }
    kinds.add("each word at 2^64 - 1, and 0", |j| {
        j.is_joined() && (1..WORDS).all(|word| j.both(word) == [u64::MAX, 0])
    });
    kinds.add("each word at 0, and 2^64 - 1", |j| {
        j.is_joined() && (1..WORDS).all(|word| j.both(word) == [0, u64::MAX])
    });
    kinds.add("a fresh report, joined", |j| {
        j.is_joined() && j.asked.other == Report::FRESH && j.asked.into != Report::FRESH
    });
    kinds.add("joined to a fresh report", |j| {
        j.is_joined() && j.asked.into == Report::FRESH && j.asked.other != Report::FRESH
    });
    kinds.add("two fresh reports", |j| {
        j.is_joined() && j.asked.into == Report::FRESH && j.asked.other == Report::FRESH
    });
    kinds.add("no word 0 in either, joined", |j| {
        j.is_joined() && (0..WORDS).all(|word| !j.both(word).contains(&0))
    });
    of_joined_rooms(&mut kinds);
    for (name, is) in olds() {
        kinds.add(name, move |j| is(j.asked.old));
    }
    kinds
}

fn of_joined_word(kinds: &mut Met<Join>, word: usize) {
    kinds.add(format!("word {word}, 2^64 - 1 and 0"), move |j: &Join| {
        j.is_joined() && j.both(word) == [u64::MAX, 0]
    });
    kinds.add(format!("word {word}, 0 and 2^64 - 1"), move |j| {
        j.is_joined() && j.both(word) == [0, u64::MAX]
    });
    kinds.add(format!("word {word}, sum 2^64 - 1"), move |j| {
        let [a, b] = j.both(word);
        j.is_joined() && a > 1 && b > 1 && a.checked_add(b) == Some(u64::MAX)
    });
    let only = move |j: &Join| j.is_refused() && j.is_only_for(word);
    kinds.add(format!("only word {word}, 2^64 - 1 and 1"), move |j| {
        only(j) && j.both(word) == [u64::MAX, 1]
    });
    kinds.add(format!("only word {word}, 1 and 2^64 - 1"), move |j| {
        only(j) && j.both(word) == [1, u64::MAX]
    });
    kinds.add(format!("only word {word}, sum 2^64"), move |j| {
        let [a, b] = j.both(word);
        only(j) && a > 1 && b > 1 && a.wrapping_add(b) == 0
    });
    kinds.add(format!("only word {word}, 2^64 - 1 twice"), move |j| {
        only(j) && j.both(word) == [u64::MAX; 2]
    });
    kinds.add(
        format!("word {word} beyond a counted listing's most"),
        move |j| {
            let [a, b] = j.both(word);
            j.is_joined() && a <= MOST && b > 0 && a + b > MOST
        },
    );
}

fn of_joined_rooms(kinds: &mut Met<Join>) {
    for at in 0..2 {
        let which = ["the first", "the second"][at];
        for words in [0, 1, 39] {
            for joined in [true, false] {
                let what = if joined { "" } else { ", else 19" };
                let name = format!("{words} words of {which}{what}");
                kinds.add(name, move |j: &Join| {
                    let other = j.asked.words[1 - at] >= WORDS;
                    j.asked.words[at] == words && other && j.joined == joined
                });
            }
        }
        for words in [40, 41, 42, 80] {
            kinds.add(format!("{words} words of {which}, joined"), move |j| {
                j.is_joined() && j.asked.words[at] == words
            });
            kinds.add(format!("{words} words of {which}, 19"), move |j| {
                j.is_refused() && j.asked.words[at] == words
            });
        }
    }
    kinds.add("too few words of both", |j| {
        j.asked.words.iter().all(|words| *words < WORDS)
    });
}
