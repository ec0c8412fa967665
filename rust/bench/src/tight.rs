//! Sheets and records packed and unpacked, beside the comparison's own calls.

use std::hint::black_box;

use compare::generate::limits::listed;
use compare::generate::rng::Rng;
use compare::proved::{packed, packs, unpacked, unpacks};
use compare::tight::{Kind, Packing, Unpacking};
use compare::words::{LIST, write};
use vierskof::tight_room;

use crate::sheets::{self, Sheet};
use crate::timing::by_turns;

/// What is packed: its name, and its words.
pub struct Scene {
    pub name: String,
    kind: Kind,
    pub words: Vec<u32>,
}

impl From<Sheet> for Scene {
    fn from(Sheet { name, words, .. }: Sheet) -> Self {
        Self {
            name,
            kind: Kind::Sheet,
            words,
        }
    }
}

/// Case D, a hundred grants and the most words of every kind of node; and a record of long lists.
pub fn scenes() -> Vec<Scene> {
    let named = |sheet: &Sheet| ["D", "100 grants", "4,096 words"].contains(&sheet.name.as_str());
    let sheets = sheets::cases().into_iter().filter(named);
    let lists = Scene {
        name: "4,095 facts".to_owned(),
        kind: Kind::Record,
        words: write::record(&listed(&mut Rng::new(1), LIST)),
    };
    sheets.map(Scene::from).chain([lists]).collect()
}

/// Sheets of grants that grow.
pub fn lengths() -> Vec<Scene> {
    sheets::lengths().into_iter().map(Scene::from).collect()
}

impl Scene {
    /// The share of one word in a time.
    pub fn a_word(&self, time: f64) -> f64 {
        let words = u32::try_from(self.words.len()).expect("few words");
        time / f64::from(words)
    }

    fn packing(&self) -> Packing {
        Packing {
            kind: self.kind,
            words: self.words.clone(),
            room: tight_room(self.words.len()),
        }
    }

    /// The bytes of its tight form.
    pub fn bytes(&self) -> usize {
        self.packing().answer().expect("accepted").len()
    }

    /// Nanoseconds of the proved packing, and of the comparison's own.
    pub fn packed(&self) -> [f64; 2] {
        let packing = self.packing();
        assert!(packs(&packing), "{} differs", self.name);
        let mut out = vec![0; packing.room];
        let mut proved = || {
            let form = packed(self.kind, black_box(&packing.words), &mut out);
            black_box(form).expect("accepted");
        };
        let mut own = || {
            black_box(black_box(&packing).answer()).expect("accepted");
        };
        by_turns([&mut proved, &mut own])
    }

    /// Nanoseconds of the proved unpacking, and of the comparison's own.
    pub fn unpacked(&self) -> [f64; 2] {
        let unpacking = Unpacking {
            kind: self.kind,
            bytes: self.packing().answer().expect("accepted"),
            room: self.words.len(),
        };
        assert!(unpacks(&unpacking), "{} differs", self.name);
        let mut out = vec![0; unpacking.room];
        let mut proved = || {
            let words = unpacked(self.kind, black_box(&unpacking.bytes), &mut out);
            black_box(words).expect("accepted");
        };
        let mut own = || {
            black_box(black_box(&unpacking).answer()).expect("accepted");
        };
        by_turns([&mut proved, &mut own])
    }
}
