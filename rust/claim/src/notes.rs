//! Notes in a list (document 02, Q-14): between two calls the service desk changes values on the
//! list's chip, at places that the reference tells, and the list goes on. The engine under test is
//! asked for each of these places too. A note alters the chip under the state, so that a state from
//! before it is not this chip's: the list goes on with a recovery, as after a cut. There are notes
//! at wrong places as well, which have to be seen to break a list.

use reference::analysis::is_dead;
use reference::journal::{read, Chip, Kind, ERASED};
use reference::notes::{last_checkpoint, spent_values, values, Value};

use crate::calls::spoiled;
use crate::engine::Engine;
use crate::met::Met;
use crate::rng::Rng;
use crate::sentence::Violation;
use crate::watch::Watch;

/// The bytes of a save of 256 records.
const LONGEST_SAVE: usize = 256 * 6 + 18;

/// Where notes are put between the calls of a list.
#[derive(Clone, Copy, Debug, PartialEq, Eq)]
pub enum Notes {
    Nowhere,
    /// Where the reference says that one may stand.
    Spent,
    /// In the value of a cell that is live at the last CHECKPOINT.
    Live,
    /// In a record's cell number.
    CellNumber,
    /// In the value of a cell that is dead at its own save's CHECKPOINT and live at the last.
    DeadAtItsOwn,
}

/// The bytes of a chip that a note replaces: from where on, how many, and of which record's.
#[derive(Clone, Copy, Debug)]
struct Place {
    at: usize,
    bytes: usize,
    value: Value,
}

impl Place {
    fn of_value(value: Value) -> Place {
        Place {
            at: value.at,
            bytes: 4,
            value,
        }
    }

    /// The byte before the value.
    fn of_cell(value: Value) -> Place {
        Place {
            at: value.at - 1,
            bytes: 1,
            value,
        }
    }
}

impl Notes {
    /// The places of the list's chip where such notes are put.
    fn places<E: Engine>(self, watch: &Watch<E>) -> Vec<Place> {
        let (plan, chip, page) = (watch.plan(), watch.chip(), watch.page());
        if self == Notes::Spent {
            let spent = spent_values(plan, chip, page, kind_on(watch));
            let spent = spent.expect("a list leaves a sound chip").into_iter();
            return spent.map(Place::of_value).collect();
        }
        let held = held(watch);
        let dead = |value: &Value, at| is_dead(plan, value.cell, at).expect("an accepted plan");
        let is_live = |value: &Value| !dead(value, last_checkpoint(&held));
        let all = values(&held, page).into_iter();
        match self {
            Notes::Nowhere | Notes::Spent => vec![],
            Notes::CellNumber => all.map(Place::of_cell).collect(),
            Notes::Live => all.filter(is_live).map(Place::of_value).collect(),
            Notes::DeadAtItsOwn => {
                let of_it = |value: &Value| is_live(value) && dead(value, value.checkpoint);
                all.filter(of_it).map(Place::of_value).collect()
            }
        }
    }
}

/// The kind of the marks on the list's chip, which is A2 until it is folded.
fn kind_on<E: Engine>(watch: &Watch<E>) -> Kind {
    match watch.is_old() {
        true => Kind::A2,
        false => watch.kind(),
    }
}

fn held<E: Engine>(watch: &Watch<E>) -> Chip {
    read(watch.plan(), watch.chip(), watch.page()).expect("a list leaves a sound chip")
}

/// Puts one or several notes on the list's chip, if it has a place for them; where it was folded
/// just now a recovery comes first, which compares it with the old one and stores nothing.
pub fn note<E: Engine>(watch: &mut Watch<E>, rng: &mut Rng, notes: Notes) -> Result<(), Violation> {
    if watch.is_just_folded() && !watch.is_old() {
        watch.recover()?;
    }
    watch.met.count("times for notes");
    let places = notes.places(watch);
    if notes == Notes::Spent {
        ask_anywhere(watch, rng)?;
    }
    if places.is_empty() {
        watch.met.count("times for notes without a place");
        return Ok(());
    }
    put_some(watch, rng, notes, &places)
}

/// Puts notes in some of the places. A wrong one stands alone, and the engine meets it at once,
/// since what comes next expects a chip as lists leave it: by a recovery, or by a fold where A2
/// marks want one.
fn put_some<E: Engine>(
    watch: &mut Watch<E>,
    rng: &mut Rng,
    notes: Notes,
    places: &[Place],
) -> Result<(), Violation> {
    let is_old = watch.is_old();
    let several = match notes {
        Notes::Spent => 1 + rng.below(3),
        _ => 1,
    };
    for _ in 0..several {
        let place = rng.pick(places);
        if notes == Notes::Spent {
            watch.ask_place(place.at as u64)?;
        }
        let note = note_bytes(rng, &watch.chip()[place.at..place.at + place.bytes]);
        count(watch, place, &note);
        watch.put_note(place.at, &note);
    }
    watch
        .met
        .add("notes of several at a time", u64::from(several > 1));
    watch.cut(spoiled(watch.state(), rng));
    match (notes, is_old) {
        (Notes::Spent, _) => Ok(()),
        (_, false) => watch.recover(),
        (_, true) => watch
            .fold(&mut [ERASED; LONGEST_SAVE], 0, u64::MAX)
            .map(|_| ()),
    }
}

/// Asks the engine for a place that is any byte of the chip, or behind it.
fn ask_anywhere<E: Engine>(watch: &mut Watch<E>, rng: &mut Rng) -> Result<(), Violation> {
    let place = rng.below(watch.chip().len() + 4) as u64;
    watch.ask_place(place)
}

/// Other bytes than stand there: often 0, those of an erased chip, or but a few bits of them.
fn note_bytes(rng: &mut Rng, before: &[u8]) -> Vec<u8> {
    loop {
        let kind = rng.below(6);
        let byte = |before: &u8| match kind {
            0 => 0x00,
            1 => 0xFF,
            2 => rng.pick(&[0xA1, 0xA2, 0xA3, 0x5A, 0x00, 0xFF]),
            3 => before ^ (1 << rng.below(8)),
            _ => rng.byte(),
        };
        let note: Vec<u8> = before.iter().map(byte).collect();
        if note != before {
            return note;
        }
    }
}

/// Counts a note by where it is put, and over what.
fn count<E: Engine>(watch: &mut Watch<E>, place: Place, note: &[u8]) {
    let held = held(watch);
    let (plan, page, value) = (watch.plan(), watch.page(), place.value);
    let last = held.saves.last().map_or(0, |save| save.pages(page).len());
    let before = &watch.chip()[place.at..place.at + place.bytes];
    let own = is_dead(plan, value.cell, value.checkpoint).expect("an accepted plan");
    let named = [
        ("notes", true),
        ("notes on a page chip", page > 1),
        ("notes on a folded chip", watch.folds() > 0),
        ("notes on A2 marks", kind_on(watch) == Kind::A2),
        ("notes with torn bytes behind", held.torn > 0),
        ("notes in an earlier save", value.at < held.end - last),
        ("notes in a cell live at its own CHECKPOINT", !own),
        ("notes of 0", note.iter().all(|&byte| byte == 0)),
        ("notes over 0", before.iter().all(|&byte| byte == 0)),
        ("notes with a byte FF", note.contains(&0xFF)),
        (
            "notes that recovery reads",
            is_last_of_cell(&held, page, value),
        ),
    ];
    for (name, is_met) in named {
        watch.met.add(name, u64::from(is_met));
    }
}

/// Whether no later record has the same cell, so that recovery takes its value from this one.
fn is_last_of_cell(held: &Chip, page: usize, value: Value) -> bool {
    let later = |other: &Value| other.cell == value.cell && other.at > value.at;
    !values(held, page).iter().any(later)
}

/// Counts the values on a chip that a list left whose cell is dead at its own save's CHECKPOINT and
/// live at the last, and how many of them recovery reads.
pub fn count_dead_at_its_own<E: Engine>(watch: &Watch<E>, met: &mut Met) {
    let held = held(watch);
    for place in Notes::DeadAtItsOwn.places(watch) {
        met.count("values dead at their own CHECKPOINT alone");
        let is_read = is_last_of_cell(&held, watch.page(), place.value);
        met.add("such values that recovery reads", is_read.into());
    }
}
