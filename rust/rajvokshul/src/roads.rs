//! The opening crusher.

use rajvokshul_sys as sys;

use crate::Refusal;

/// The crusher that a truck opens with: that of the road with the least exact travel time, the lowest number on a tie.
///
/// The lists have an entry for each road: its length in metres, the metres of the last run on it, and the seconds of that
/// run (0 to 3,600). A road of length 0 takes 0 seconds: the truck stands at that crusher. A longer one whose last run
/// covered 0 metres is idle and passed over. Refusals: 10, 11, 12, 13.
///
/// ```
/// use rajvokshul::{opening, Refusal};
///
/// // Both take 180 seconds.
/// assert_eq!(opening(&[1200, 900], &[600, 300], &[90, 60]), Ok(0));
/// // The first road is idle, and longer than 0.
/// assert_eq!(opening(&[500, 900], &[0, 300], &[40, 60]), Ok(1));
/// assert_eq!(opening(&[500], &[0], &[40]), Err(Refusal::AllIdle));
/// // The truck stands at crusher 0.
/// assert_eq!(opening(&[0, 900], &[0, 300], &[40, 60]), Ok(0));
/// ```
pub fn opening(lengths: &[u16], metres: &[u16], seconds: &[u16]) -> Result<u8, Refusal> {
    let mut crusher = 0;
    // SAFETY: the three lists are slices, valid for reads of their lengths, and the crusher is a local, which they do not overlap.
    let answer = unsafe {
        sys::rajvokshul_opening(
            lengths.as_ptr(),
            lengths.len(),
            metres.as_ptr(),
            metres.len(),
            seconds.as_ptr(),
            seconds.len(),
            &mut crusher,
        )
    };
    Refusal::check_bare(answer)?;
    Ok(crusher)
}
