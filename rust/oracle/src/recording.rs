//! The bits of a recording, the plain form, and refusals 1 to 9 about them.

/// The most trucks a fleet has.
pub const MAX_TRUCKS: usize = 32;
/// The most rounds a recording has.
pub const MAX_ROUNDS: usize = 400;
/// The highest crusher.
pub const MAX_CRUSHER: u8 = 15;
/// Bytes of the largest recording.
pub const LARGEST: usize = 56_018;

/// The two counts a recording begins with.
#[derive(Clone, Copy, Debug, PartialEq, Eq)]
pub struct Header {
    pub n: usize,
    pub rounds: usize,
}

/// A recording in plain form: a byte an opening, 3 + n words a round.
#[derive(Clone, Debug, PartialEq, Eq)]
pub struct Plain {
    pub n: usize,
    pub rounds: usize,
    pub openings: Vec<u8>,
    pub words: Vec<u32>,
}

impl Plain {
    /// The words of round `round`, counted from 1.
    pub fn round(&self, round: usize) -> &[u32] {
        let width = 3 + self.n;
        &self.words[(round - 1) * width..round * width]
    }
}

/// Places of the fields, counted in bits from the front.
/// Rounds are counted from 0 here, as an index.
impl Header {
    pub fn opening_place(&self, truck: usize) -> usize {
        16 + 4 * truck
    }

    pub fn round_place(&self, index: usize) -> usize {
        16 + 4 * self.n + index * (3 * self.n + self.n * self.n)
    }

    /// `kind` is 0 for stop, 1 for active, 2 for mark bits.
    pub fn flag_place(&self, index: usize, kind: usize, truck: usize) -> usize {
        self.round_place(index) + kind * self.n + truck
    }

    pub fn loss_place(&self, index: usize, hearer: usize, sender: usize) -> usize {
        self.round_place(index) + 3 * self.n + hearer * self.n + sender
    }

    /// All bits up to the end of the last round.
    pub fn total_bits(&self) -> usize {
        self.round_place(self.rounds)
    }

    /// All bytes, the last one filled up.
    pub fn total_bytes(&self) -> usize {
        self.total_bits().div_ceil(8)
    }

    /// The number of plain words of all rounds.
    pub fn total_words(&self) -> usize {
        self.rounds * (3 + self.n)
    }
}

/// The bit at a place, most significant bit of each byte first.
pub fn bit(bytes: &[u8], place: usize) -> bool {
    bytes[place / 8] >> (7 - place % 8) & 1 == 1
}

/// Sets the bit at a place to 1.
pub fn set_bit(bytes: &mut [u8], place: usize) {
    bytes[place / 8] |= 1 << (7 - place % 8);
}

/// The number in `width` bits from a place on, most significant bit first.
pub fn number(bytes: &[u8], place: usize, width: usize) -> usize {
    let mut value = 0;
    for k in 0..width {
        value = 2 * value + bit(bytes, place + k) as usize;
    }
    value
}

/// The own loss bit that refusal 6 names: its round, counted from 1, and its
/// truck. Of several the one in the earliest round and, there, of the lowest
/// truck is the least.
#[derive(Clone, Copy, Debug, PartialEq, Eq, PartialOrd, Ord)]
pub struct OwnBit {
    pub round: u16,
    pub truck: u8,
}

/// The least of all own loss bits that are 1 in so many rounds, by what each
/// bit is.
fn least_own_bit(n: usize, rounds: usize, is_set: impl Fn(usize, usize) -> bool) -> Option<OwnBit> {
    let mut all = Vec::new();
    for truck in 0..n {
        for index in 0..rounds {
            if is_set(index, truck) {
                all.push(OwnBit { round: index as u16 + 1, truck: truck as u8 });
            }
        }
    }
    all.into_iter().min()
}

/// Where refusal 6 finds an own loss bit of a recording; nothing where the
/// recording is accepted or refused for another reason.
pub fn own_bit(bytes: &[u8]) -> Option<OwnBit> {
    if check(bytes) != Err(6) {
        return None;
    }
    let header = Header { n: number(bytes, 0, 6), rounds: number(bytes, 6, 10) };
    least_own_bit(header.n, header.rounds, |index, truck| {
        bit(bytes, header.loss_place(index, truck, truck))
    })
}

/// The same of plain rounds that are written.
pub fn write_own_bit(n: u64, rounds: u64, openings: &[u8], words: &[u32]) -> Option<OwnBit> {
    if write(n, rounds, openings, words) != Err(6) {
        return None;
    }
    words_own_bit(n as usize, words)
}

/// Where the own loss bits of one round are that a step refuses; nothing of a
/// round that is misshapen, or of numbers outside the limits.
pub fn round_own_bit(n: u32, round: u32, words: &[u32]) -> Option<OwnBit> {
    let within = (1..=MAX_TRUCKS as u32).contains(&n) && (1..=MAX_ROUNDS as u32).contains(&round);
    if !within || round_misshapen(n as usize, words) {
        return None;
    }
    let least = words_own_bit(n as usize, words)?;
    Some(OwnBit { round: round as u16, ..least })
}

/// The least own loss bit that is 1 in plain rounds of 3 + n words each.
pub fn words_own_bit(n: usize, words: &[u32]) -> Option<OwnBit> {
    let width = 3 + n;
    least_own_bit(n, words.len() / width, |index, truck| {
        words[index * width + 3 + truck] >> truck & 1 == 1
    })
}

/// Refusals 1 to 6, in this order.
pub fn check(bytes: &[u8]) -> Result<Header, u8> {
    if bytes.len() < 2 {
        return Err(1);
    }
    let n = number(bytes, 0, 6);
    if n == 0 || n > MAX_TRUCKS {
        return Err(2);
    }
    let rounds = number(bytes, 6, 10);
    if rounds > MAX_ROUNDS {
        return Err(3);
    }
    let header = Header { n, rounds };
    if bytes.len() != header.total_bytes() {
        return Err(4);
    }
    for place in header.total_bits()..8 * bytes.len() {
        if bit(bytes, place) {
            return Err(5);
        }
    }
    for index in 0..rounds {
        for truck in 0..n {
            if bit(bytes, header.loss_place(index, truck, truck)) {
                return Err(6);
            }
        }
    }
    Ok(header)
}

/// Reads a recording to plain form.
pub fn read(bytes: &[u8]) -> Result<Plain, u8> {
    let header = check(bytes)?;
    let n = header.n;
    let mut openings = Vec::new();
    for truck in 0..n {
        openings.push(number(bytes, header.opening_place(truck), 4) as u8);
    }
    let mut words = Vec::new();
    for index in 0..header.rounds {
        for kind in 0..3 {
            words.push(word(n, |j| bit(bytes, header.flag_place(index, kind, j))));
        }
        for i in 0..n {
            words.push(word(n, |j| bit(bytes, header.loss_place(index, i, j))));
        }
    }
    Ok(Plain { n, rounds: header.rounds, openings, words })
}

/// A plain word: truck j at the bit worth 2 to the j.
fn word(n: usize, bit_of: impl Fn(usize) -> bool) -> u32 {
    let mut value = 0;
    for j in 0..n {
        if bit_of(j) {
            value |= 1 << j;
        }
    }
    value
}

/// Reads into lent buffers: 9 if either is too short. On a refusal neither
/// changes; otherwise everything past the part written stays.
pub fn read_into(bytes: &[u8], openings: &mut [u8], words: &mut [u32]) -> Result<Header, u8> {
    let plain = read(bytes)?;
    if openings.len() < plain.openings.len() || words.len() < plain.words.len() {
        return Err(9);
    }
    openings[..plain.openings.len()].copy_from_slice(&plain.openings);
    words[..plain.words.len()].copy_from_slice(&plain.words);
    Ok(Header { n: plain.n, rounds: plain.rounds })
}

/// Refusal 8 of a single round of a fleet of n.
pub fn round_misshapen(n: usize, words: &[u32]) -> bool {
    words.len() != 3 + n || words.iter().any(|w| bit_above(n, *w))
}

/// Whether some bit at or above n is set.
fn bit_above(n: usize, word: u32) -> bool {
    (n..32).any(|j| word >> j & 1 == 1)
}

/// Refusal 6 of a single round of 3 + n words.
pub fn round_has_own_bit(n: usize, words: &[u32]) -> bool {
    (0..n).any(|i| words[3 + i] >> i & 1 == 1)
}

/// Refusal 7 of the openings given to a start or to writing.
pub fn openings_refused(n: usize, openings: &[u8]) -> bool {
    openings.len() != n || openings.iter().any(|o| *o > MAX_CRUSHER)
}

/// Writes a plain form as a recording: refusals 2, 3, 7, 8, 6.
pub fn write(n: u64, rounds: u64, openings: &[u8], words: &[u32]) -> Result<Vec<u8>, u8> {
    if n == 0 || n > MAX_TRUCKS as u64 {
        return Err(2);
    }
    if rounds > MAX_ROUNDS as u64 {
        return Err(3);
    }
    let header = Header { n: n as usize, rounds: rounds as usize };
    let n = header.n;
    if openings_refused(n, openings) {
        return Err(7);
    }
    if words.len() != header.total_words() || words.iter().any(|w| bit_above(n, *w)) {
        return Err(8);
    }
    if words.chunks(3 + n).any(|round| round_has_own_bit(n, round)) {
        return Err(6);
    }
    Ok(pack(header, openings, words))
}

/// The bytes of a plain form of 1 to 32 trucks, leftover bits 0. Nothing else
/// is checked here, so that damaged recordings can be made with it too.
pub fn pack(header: Header, openings: &[u8], words: &[u32]) -> Vec<u8> {
    let n = header.n;
    let mut bytes = vec![0; header.total_bytes()];
    set_number(&mut bytes, 0, 6, n);
    set_number(&mut bytes, 6, 10, header.rounds);
    for (truck, opening) in openings.iter().enumerate() {
        set_number(&mut bytes, header.opening_place(truck), 4, *opening as usize);
    }
    for (index, round) in words.chunks(3 + n).enumerate() {
        for j in 0..n {
            for kind in 0..3 {
                if round[kind] >> j & 1 == 1 {
                    set_bit(&mut bytes, header.flag_place(index, kind, j));
                }
            }
            for i in 0..n {
                if round[3 + i] >> j & 1 == 1 {
                    set_bit(&mut bytes, header.loss_place(index, i, j));
                }
            }
        }
    }
    bytes
}

/// Puts a number into `width` zero bits, most significant bit first.
fn set_number(bytes: &mut [u8], place: usize, width: usize, value: usize) {
    for k in 0..width {
        if value >> (width - 1 - k) & 1 == 1 {
            set_bit(bytes, place + k);
        }
    }
}

/// Writes into a lent buffer and answers the number of bytes written: 9 if it
/// is too short. On a refusal it doesn't change; otherwise everything past the
/// part written stays.
pub fn write_into(
    n: u64,
    rounds: u64,
    openings: &[u8],
    words: &[u32],
    buffer: &mut [u8],
) -> Result<usize, u8> {
    let bytes = write(n, rounds, openings, words)?;
    if buffer.len() < bytes.len() {
        return Err(9);
    }
    buffer[..bytes.len()].copy_from_slice(&bytes);
    Ok(bytes.len())
}
