//! The unchanged Rust's dictionary, its answers put into the port's numbers.

use super::backend::{self, Kept, Table};
use super::image::Record;
use super::layout::{ARRAY, Object, VARIABLE, Value, element, is_string};
use super::node::Node;
use super::running::Told;
use super::step::{Width, Write};
use crate::original;
use powerlink_rs::node::PdoHandler;
use powerlink_rs::od::{
    AccessType, Category, Object as Shape, ObjectDictionary, ObjectEntry, ObjectValue,
};
use powerlink_rs::pdo::PDOVersion;
use powerlink_rs::{NodeId, PowerlinkError, reach};
use std::borrow::Cow;
use std::cell::RefCell;
use std::rc::Rc;

pub const OBJECT_NOT_FOUND: u64 = 3;
pub const SUB_OBJECT_NOT_FOUND: u64 = 4;
pub const TYPE_MISMATCH: u64 = 5;

const ACCESSES: [AccessType; 7] = [
    AccessType::ReadOnly,
    AccessType::WriteOnly,
    AccessType::WriteOnlyStore,
    AccessType::ReadWrite,
    AccessType::ReadWriteStore,
    AccessType::Constant,
    AccessType::Conditional,
];

pub struct Rust {
    node: Node,
    kept: Rc<RefCell<Kept>>,
}

/// A value as the port answers it; `bytes` are a string's.
#[derive(PartialEq, Eq)]
pub struct Found {
    pub kind: u64,
    pub word: u64,
    pub bytes: Vec<u8>,
}

impl Found {
    pub fn of(value: &Value) -> Self {
        let bytes = if is_string(value.kind) { value.encoding() } else { Vec::new() };
        Self { kind: value.kind, word: value.word, bytes }
    }
}

/// What a write did that was not refused.
pub enum Written {
    /// A value was put, or a mapping's count accepted.
    Taken,
    /// The table that was saved.
    Saved(Vec<Record>),
    RestoreRequested,
}

impl Rust {
    /// A dictionary with these objects and, where there is a store, a storage without a table.
    pub fn of(objects: &[Object], has_store: bool) -> Self {
        let (storage, kept) = match has_store {
            true => {
                let (storage, kept) = backend::storage();
                (Some(storage), kept)
            }
            false => (None, Rc::default()),
        };
        let mut rust = Self { node: Node::around(ObjectDictionary::new(storage)), kept };
        objects.iter().for_each(|object| rust.insert(object));
        rust
    }

    pub fn insert(&mut self, object: &Object) {
        self.insert_entry(object.index as u16, Self::entry(object));
    }

    pub fn insert_entry(&mut self, index: u16, entry: ObjectEntry) {
        self.node.core.od.insert(index, entry);
    }

    pub fn entry(object: &Object) -> ObjectEntry {
        let mut values: Vec<ObjectValue> = object.values.iter().map(value).collect();
        let shape = match object.shape {
            VARIABLE => Shape::Variable(values.remove(0)),
            ARRAY => Shape::Array(values),
            _ => Shape::Record(values),
        };
        let name = String::from_utf8(object.name.clone()).expect("the name is UTF-8");
        ObjectEntry {
            object: shape,
            // The Rust's names live as long as the program, so these are never given back.
            name: name.leak(),
            category: Category::Optional,
            access: ACCESSES.get(object.access as usize).copied(),
            default_value: object.default.as_ref().map(value),
            value_range: None,
            pdo_mapping: None,
        }
    }

    /// Just the Rust's own write, for timing.
    pub fn poke(&mut self, index: u16, sub_index: u8, value: ObjectValue) {
        self.node.core.od.write(index, sub_index, value).expect("it is a right one");
    }

    /// Just the Rust's own read, for timing.
    pub fn peek(&self, index: u16, sub_index: u8) -> Option<Cow<'_, ObjectValue>> {
        self.node.core.od.read(index, sub_index)
    }

    /// Its None is told apart by whether there is such an object.
    pub fn read(&self, index: u16, sub_index: u8) -> Result<Found, u64> {
        let Some(value) = self.node.core.od.read(index, sub_index) else {
            let present = self.node.core.od.read_object(index).is_some();
            return Err(if present { SUB_OBJECT_NOT_FOUND } else { OBJECT_NOT_FOUND });
        };
        let kind = kind(&value);
        let word = original::numbers(&value)[0];
        let bytes = if original::size(kind).is_none() { value.serialize() } else { Vec::new() };
        Ok(Found { kind, word, bytes })
    }

    pub fn read_number(&self, width: Width, index: u16, sub_index: u8) -> Result<u64, u64> {
        let number = match width {
            Width::U8 => self.node.core.od.read_u8(index, sub_index).map(u64::from),
            Width::U16 => self.node.core.od.read_u16(index, sub_index).map(u64::from),
            Width::U32 => self.node.core.od.read_u32(index, sub_index).map(u64::from),
            Width::U64 => self.node.core.od.read_u64(index, sub_index),
        };
        number.ok_or_else(|| self.read(index, sub_index).err().unwrap_or(TYPE_MISMATCH))
    }

    pub fn find_by_name(&self, name: &str) -> Result<u64, u64> {
        let (index, sub_index) = self.node.core.od.find_by_name(name).ok_or(OBJECT_NOT_FOUND)?;
        assert_eq!(sub_index, 0, "a name is its object's, so it names sub-index 0");
        Ok(index.into())
    }

    pub fn get_configured_cns(&self) -> Vec<u8> {
        self.node.core.od.get_configured_cns().into_iter().map(|node| node.0).collect()
    }

    pub fn increment_counter(&mut self, index: u16, sub_index: u8) {
        reach::increment_counter(&mut self.node.core.od, index, sub_index);
    }

    pub fn validate_pdo_mapping(&self, index: u16, count: u8) -> Result<(), u64> {
        reach::validate_pdo_mapping(&self.node.core.od, index, count).map_err(refusal)
    }

    /// Of a value that keeps R3.4: the Rust has no other.
    pub fn write(&mut self, given: &Write) -> Result<Written, u64> {
        self.kept.borrow_mut().saved = false;
        let value = original::decode(given.kind, &given.data).expect("a right value decodes");
        self.node.core.od.write(given.index, given.sub_index, value).map_err(refusal)?;
        let kept = &mut *self.kept.borrow_mut();
        if std::mem::take(&mut kept.restore_requested) {
            return Ok(Written::RestoreRequested);
        }
        Ok(match &kept.table {
            Some(table) if kept.saved => Written::Saved(records(table)),
            _ => Written::Taken,
        })
    }

    /// The table is again the one before the last save.
    pub fn undo_save(&mut self) {
        let kept = &mut *self.kept.borrow_mut();
        assert!(kept.saved, "a save was just made");
        kept.table = kept.replaced.take();
    }

    /// What its storage keeps: the table of the last save, or that of the last restore.
    pub fn table(&self) -> Option<Vec<Record>> {
        self.kept.borrow().table.as_ref().map(records)
    }

    /// Its storage has this table from now on, or cannot be read.
    pub fn keep(&mut self, table: Option<&[Record]>) {
        self.kept.borrow_mut().table = table.map(|records| records.iter().map(row).collect());
    }

    pub fn restore_power_on_values(&mut self, first: u16, last: u16) {
        self.node.core.od.restore_power_on_values(first, last);
    }

    /// A payload that is ready. What no room of these objects holds is not kept.
    pub fn consume(
        &mut self,
        sender: u8,
        payload: &[u8],
        version: u8,
        objects: &[Object],
    ) -> Vec<Told> {
        let room = |index: u16, sub_index: u8| {
            let row = objects.binary_search_by_key(&u64::from(index), |object| object.index);
            let object = &objects[row.expect("the Rust has just these objects")];
            let place = element(object, sub_index).expect("a string is no count");
            object.values[place].room.len()
        };
        self.node.watched(sender, payload, version, &room)
    }

    /// Just the Rust's own run, for what is not ready and for timing.
    pub fn receive(&mut self, sender: u8, payload: &[u8], version: u8, ready: bool) {
        self.node.consume_pdo_payload(NodeId(sender), payload, PDOVersion(version), ready);
    }

    pub fn update_pdo_error_object(&mut self, index: u16, node: u8) {
        self.node.update_pdo_error_object(index, NodeId(node));
    }

    /// Puts a value that was there before, whatever the access.
    pub fn put_back(&mut self, index: u16, sub_index: u8, old: &Value) {
        let put =
            reach::write_internal(&mut self.node.core.od, index, sub_index, value(old), false);
        put.expect("a value of its type was there");
    }
}

/// The number of a refusal of `write`; the Rust says some of them by text alone.
fn refusal(error: PowerlinkError) -> u64 {
    match error {
        PowerlinkError::ObjectNotFound => OBJECT_NOT_FOUND,
        PowerlinkError::SubObjectNotFound => SUB_OBJECT_NOT_FOUND,
        PowerlinkError::TypeMismatch => TYPE_MISMATCH,
        PowerlinkError::StorageError("Object is read-only") => 6,
        PowerlinkError::StorageError(
            "Invalid signature or sub-index for Store Parameters"
            | "Invalid signature or sub-index for Restore Defaults",
        ) => 7,
        PowerlinkError::StorageError("No storage backend configured") => 8,
        PowerlinkError::StorageError("Cannot write to sub-index 0 of standard Array/Record") => 9,
        PowerlinkError::ValidationError(
            "Incomplete PDO mapping configuration: Missing entries",
        ) => 10,
        PowerlinkError::PdoMapOverrun => 11,
        other => panic!("the Rust gives {other:?}, which has no number"),
    }
}

fn records(table: &Table) -> Vec<Record> {
    let record = |((index, sub_index), value): (&(u16, u8), &ObjectValue)| Record {
        index: *index,
        sub_index: *sub_index,
        kind: kind(value) as u8,
        body: value.serialize(),
    };
    table.iter().map(record).collect()
}

fn row(record: &Record) -> ((u16, u8), ObjectValue) {
    let value = original::decode(record.kind.into(), &record.body);
    ((record.index, record.sub_index), value.expect("a readable record decodes"))
}

fn value(value: &Value) -> ObjectValue {
    original::decode(value.kind, &value.encoding()).expect("a sound value decodes")
}

/// The number of a value's type.
fn kind(value: &ObjectValue) -> u64 {
    match value {
        ObjectValue::Boolean(_) => 0,
        ObjectValue::Integer8(_) => 1,
        ObjectValue::Integer16(_) => 2,
        ObjectValue::Integer32(_) => 3,
        ObjectValue::Integer64(_) => 4,
        ObjectValue::Unsigned8(_) => 5,
        ObjectValue::Unsigned16(_) => 6,
        ObjectValue::Unsigned32(_) => 7,
        ObjectValue::Unsigned64(_) => 8,
        ObjectValue::Real32(_) => 9,
        ObjectValue::Real64(_) => 10,
        ObjectValue::VisibleString(_) => 11,
        ObjectValue::OctetString(_) => 12,
        ObjectValue::UnicodeString(_) => 13,
        ObjectValue::Domain(_) => 14,
        ObjectValue::TimeOfDay(_) => 15,
        ObjectValue::TimeDifference(_) => 16,
        ObjectValue::NetTime(_) => 17,
        ObjectValue::RelativeTime(_) => 18,
        ObjectValue::MacAddress(_) => 19,
        ObjectValue::IpAddress(_) => 20,
    }
}
