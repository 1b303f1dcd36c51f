//! What a segmenter holds, which its clones share.
use std::sync::Arc;

use crate::raw::Slot;
use crate::{Error, LineOptions, Script};

/// What a slot is opened by.
#[derive(Clone)]
pub(crate) enum Origin {
    Data { kind: u32, options: LineOptions },
    Rules(Box<str>),
}

/// What changes a slot. Words stand in lists, which [`words_in`](crate::dictionaries::words_in) reads.
pub(crate) enum Change {
    Dictionary(String, Script),
    Abbreviations(String),
    CountByCluster,
}

/// A slot, and what another one like it is made from.
pub(crate) struct Held {
    slot: Slot,
    origin: Origin,
    changes: Vec<Arc<Change>>,
}

impl Origin {
    fn open(&self) -> Result<Slot, Error> {
        match self {
            Self::Data { kind, options } => Slot::open(*kind, *options),
            Self::Rules(rules) => Slot::open_rules(rules),
        }
    }
}

impl Change {
    fn make(&self, slot: &mut Slot) -> Result<(), Error> {
        match self {
            Self::Dictionary(list, script) => slot.load_dictionary(list, *script),
            Self::Abbreviations(list) => slot.load_abbreviations(list),
            Self::CountByCluster => slot.count_by_cluster(),
        }
    }

    /// Whether a slot stays as it is by this change, after another one.
    fn is_needless_after(&self, other: &Self) -> bool {
        match (self, other) {
            (Self::Dictionary(_, script), Self::Dictionary(_, loaded)) => script == loaded,
            (Self::CountByCluster, Self::CountByCluster) => true,
            _ => false,
        }
    }
}

impl Held {
    pub(crate) fn open(origin: Origin) -> Result<Self, Error> {
        Ok(Self { slot: origin.open()?, origin, changes: Vec::new() })
    }

    #[inline]
    pub(crate) fn slot(&self) -> &Slot {
        &self.slot
    }

    /// Makes a change: here where nobody else shares what is held, and otherwise in another one, which takes its place if all goes well.
    pub(crate) fn change(held: &mut Arc<Self>, change: Change) -> Result<(), Error> {
        if held.changes.iter().any(|made| change.is_needless_after(made)) {
            return Ok(());
        }
        if let Some(own) = Arc::get_mut(held) {
            return own.make(Arc::new(change));
        }
        let mut other = held.again()?;
        other.make(Arc::new(change))?;
        *held = Arc::new(other);
        Ok(())
    }

    /// Another one like it.
    fn again(&self) -> Result<Self, Error> {
        let mut other = Self::open(self.origin.clone())?;
        self.changes.iter().try_for_each(|change| other.make(Arc::clone(change)))?;
        Ok(other)
    }

    fn make(&mut self, change: Arc<Change>) -> Result<(), Error> {
        change.make(&mut self.slot)?;
        self.changes.push(change);
        Ok(())
    }
}
