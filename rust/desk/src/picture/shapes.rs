//! Symbols as path data, around a middle and with half a width.

/// An estimate sent: a triangle that points up.
pub fn sent(x: i32, y: i32, half: i32) -> String {
    format!("M{} {}h{}L{x} {}z", x - half, y + half, 2 * half, y - half)
}

/// A message in a bit round: an upright bar.
pub fn bit(x: i32, y: i32, half: i32) -> String {
    block(x - 2, y - half, 4, 2 * half)
}

/// Having become unwilling: a square that stands on a corner.
pub fn unwilling(x: i32, y: i32, half: i32) -> String {
    format!("M{x} {}l{half} {half}l-{half} {half}l-{half} -{half}z", y - half)
}

/// A veto sent: a cross.
pub fn veto(x: i32, y: i32, half: i32) -> String {
    let whole = 2 * half;
    format!("M{} {}l{whole} {whole}m0-{whole}l-{whole} {whole}", x - half, y - half)
}

/// A mark: a flag on its pole.
pub fn mark(x: i32, y: i32, half: i32) -> String {
    let (left, top, width) = (x - half + 1, y - half - 1, 2 * half - 1);
    format!("M{left} {}V{top}l{width} {}l-{width} {}", y + half + 2, half - 1, half - 1)
}

/// A decision: a tick.
pub fn decided(x: i32, y: i32, half: i32) -> String {
    let small = half * 2 / 3;
    format!("M{} {y}l{small} {small}l{} -{}", x - half, 2 * half - small, half + small)
}

/// A stop, or a tick of a narrow round: a box from its upper left corner.
pub fn block(x: i32, y: i32, width: i32, height: i32) -> String {
    format!("M{x} {y}h{width}v{height}h-{width}z")
}
