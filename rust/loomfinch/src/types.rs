//! Small types with the names that powerlink-rs gives them.

use std::fmt;

/// The number of a node: 1 to 239 controlled nodes, 240 the managing node.
#[derive(Debug, Clone, Copy, PartialEq, Eq, PartialOrd, Ord, Hash)]
pub struct NodeId(pub u8);

impl fmt::Display for NodeId {
    fn fmt(&self, f: &mut fmt::Formatter<'_>) -> fmt::Result {
        write!(f, "{}", self.0)
    }
}

/// The version of a mapping: the high half is the main version, the low half the sub version; 0 is none. It displays as
/// `1.2`, each half as a hexadecimal digit.
#[derive(Debug, Clone, Copy, PartialEq, Eq, PartialOrd, Ord, Hash)]
pub struct PDOVersion(pub u8);

impl PDOVersion {
    /// Whether a channel that expects this version takes payloads of another: none takes none alone; else the main versions
    /// are the same, and the other's sub version is not smaller.
    ///
    /// ```
    /// use loomfinch::PDOVersion;
    ///
    /// assert!(PDOVersion(0x10).takes(PDOVersion(0x12)));
    /// assert!(!PDOVersion(0x12).takes(PDOVersion(0x10)));
    /// ```
    pub fn takes(self, received: PDOVersion) -> bool {
        match self.0 {
            0 => received.0 == 0,
            expected => received.0 >> 4 == expected >> 4 && received.0 & 15 >= expected & 15,
        }
    }
}

impl fmt::Display for PDOVersion {
    fn fmt(&self, f: &mut fmt::Formatter<'_>) -> fmt::Result {
        write!(f, "{:X}.{:X}", self.0 >> 4, self.0 & 15)
    }
}

/// The address of a network interface, in the order of transmission. It displays as `00:60:65:0a:1b:2c`.
#[derive(Debug, Clone, Copy, PartialEq, Eq, Hash)]
pub struct MacAddress(pub [u8; 6]);

impl fmt::Display for MacAddress {
    fn fmt(&self, f: &mut fmt::Formatter<'_>) -> fmt::Result {
        let [a, b, c, d, e, last] = self.0;
        write!(f, "{a:02x}:{b:02x}:{c:02x}:{d:02x}:{e:02x}:{last:02x}")
    }
}

/// An Internet address of version 4, in the order of transmission.
pub type IpAddress = [u8; 4];

/// A time of the day. The four highest bits of `ms` are reserved and kept.
#[derive(Debug, Clone, Copy, PartialEq, Eq, Hash, Default)]
pub struct TimeOfDay {
    /// Milliseconds after midnight.
    pub ms: u32,
    /// Days since 1 January 1984.
    pub days: u16,
}

/// A difference of two times of the day. The four highest bits of `ms` are reserved and kept.
#[derive(Debug, Clone, Copy, PartialEq, Eq, Hash, Default)]
pub struct TimeDifference {
    /// Milliseconds.
    pub ms: u32,
    /// Days.
    pub days: u16,
}

/// A time as IEEE 1588 has it.
#[derive(Debug, Clone, Copy, PartialEq, Eq, Hash, Default)]
pub struct NetTime {
    /// Seconds.
    pub seconds: u32,
    /// Nanoseconds within the second.
    pub nanoseconds: u32,
}

/// A relative time, in microseconds.
#[derive(Debug, Clone, Copy, PartialEq, Eq, Hash, Default)]
pub struct RelativeTime(pub u64);
