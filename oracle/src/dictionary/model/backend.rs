//! The storage that the Rust's dictionary is given: it keeps one table, which
//! each save replaces (RULES.md R2.5).

use powerlink_rs::PowerlinkError;
use powerlink_rs::hal::ObjectDictionaryStorage;
use powerlink_rs::od::ObjectValue;
use std::cell::RefCell;
use std::collections::BTreeMap;
use std::rc::Rc;

pub type Table = BTreeMap<(u16, u8), ObjectValue>;

#[derive(Default)]
pub struct Kept {
    /// None where nothing was saved yet and no readable image was found.
    pub table: Option<Table>,
    /// The table before the last save.
    pub replaced: Option<Table>,
    /// Whether there was a save that was not looked at yet.
    pub saved: bool,
    pub restore_requested: bool,
}

struct Backend(Rc<RefCell<Kept>>);

/// The dictionary borrows its storage for as long as the program lives, so that
/// this one is never given back; what it keeps is shared.
pub fn storage() -> (&'static mut dyn ObjectDictionaryStorage, Rc<RefCell<Kept>>) {
    let kept = Rc::new(RefCell::new(Kept::default()));
    (Box::leak(Box::new(Backend(kept.clone()))), kept)
}

impl ObjectDictionaryStorage for Backend {
    fn load(&mut self) -> Result<Table, PowerlinkError> {
        self.0.borrow().table.clone().ok_or(PowerlinkError::StorageError("No readable image"))
    }

    fn save(&mut self, parameters: &Table) -> Result<(), PowerlinkError> {
        let kept = &mut *self.0.borrow_mut();
        kept.replaced = kept.table.replace(parameters.clone());
        kept.saved = true;
        Ok(())
    }

    fn clear(&mut self) -> Result<(), PowerlinkError> {
        self.0.borrow_mut().table = None;
        Ok(())
    }

    fn restore_defaults_requested(&self) -> bool {
        self.0.borrow().restore_requested
    }

    fn request_restore_defaults(&mut self) -> Result<(), PowerlinkError> {
        self.0.borrow_mut().restore_requested = true;
        Ok(())
    }

    fn clear_restore_defaults_flag(&mut self) -> Result<(), PowerlinkError> {
        self.0.borrow_mut().restore_requested = false;
        Ok(())
    }
}
