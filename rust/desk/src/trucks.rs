//! Sets of trucks.

use std::fmt;

/// A set of trucks: truck j is the bit worth 2 to the j, as in a word of the plain form.
#[derive(Clone, Copy, Debug, Default, PartialEq, Eq, Hash)]
pub struct TruckSet(pub u32);

impl TruckSet {
    /// The set of the trucks that `belongs` names, out of the first `count`, which is at most 32.
    pub fn of(count: usize, belongs: impl Fn(usize) -> bool) -> TruckSet {
        TruckSet((0..count).filter(|&i| belongs(i)).fold(0, |bits, i| bits | 1 << i))
    }

    /// Whether a truck below 32 is in the set.
    pub fn has(self, truck: usize) -> bool {
        self.0 >> truck & 1 == 1
    }

    /// The number of trucks in the set.
    pub fn count(self) -> usize {
        self.0.count_ones() as usize
    }

    /// Whether no truck is in the set.
    pub fn is_empty(self) -> bool {
        self.0 == 0
    }

    /// The trucks of the set, lowest number first.
    pub fn iter(self) -> impl Iterator<Item = usize> {
        (0..32).filter(move |&i| self.has(i))
    }

    /// The trucks in words: `truck 4`, `trucks 0, 3-5`.
    pub fn named(self) -> String {
        let noun = if self.count() == 1 { "truck" } else { "trucks" };
        format!("{noun} {self}")
    }
}

impl fmt::Display for TruckSet {
    /// Numbers with commas; three or more in a row as a range.
    fn fmt(&self, f: &mut fmt::Formatter<'_>) -> fmt::Result {
        let mut next = 0;
        let mut comma = "";
        while let Some(first) = self.iter().find(|&i| i >= next) {
            let last = (first..32).take_while(|&i| self.has(i)).last().unwrap_or(first);
            match last - first {
                0 => write!(f, "{comma}{first}")?,
                1 => write!(f, "{comma}{first}, {last}")?,
                _ => write!(f, "{comma}{first}-{last}")?,
            }
            comma = ", ";
            next = last + 1;
        }
        Ok(())
    }
}

/// A number with its noun: `1 round`, `4 rounds`.
pub fn counted(count: usize, noun: &str) -> String {
    let plural = match noun {
        "veto" => "vetoes".to_string(),
        _ => format!("{noun}s"),
    };
    format!("{} {}", grouped(count), if count == 1 { noun } else { &plural })
}

/// Numbers of messages of both kinds: `2 proposals, 1 veto`.
pub fn messages(proposals: usize, vetoes: usize) -> String {
    format!("{}, {}", counted(proposals, "proposal"), counted(vetoes, "veto"))
}

/// A number with a comma before its last three digits: `56,018`. For numbers below a million.
pub fn grouped(count: usize) -> String {
    match count {
        0..=999 => count.to_string(),
        _ => format!("{},{:03}", count / 1000, count % 1000),
    }
}
