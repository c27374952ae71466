//! Path text over the radio.

use crate::{raw, Path, Refusal, RADIO_WORDS};

/// A path text that comes in fragments. However it is divided, and a number may be broken across
/// two, what [`close`](Radio::close) answers is what [`read`](crate::read) answers to the whole text.
/// The same two lists are lent to each call.
///
/// ```
/// use stipeharbor::{Radio, Refusal, BEGIN, END_OPEN, LINE};
///
/// let (mut verbs, mut coordinates) = ([9; 4], [9.0; 6]);
/// let mut radio = Radio::start();
/// for fragment in ["M0 0L1", "2 3"] {
///     radio.take(fragment.as_bytes(), &mut verbs, &mut coordinates)?;
/// }
/// let path = radio.close(&mut verbs, &mut coordinates)?;
/// assert_eq!((path.verbs, path.coordinates), (3, 4));
/// assert_eq!(verbs, [BEGIN, LINE, END_OPEN, 9]);
/// assert_eq!(coordinates, [0.0, 0.0, 12.0, 3.0, 9.0, 9.0]);
/// let again = radio.close(&mut verbs, &mut coordinates);
/// assert_eq!(again, Err(Refusal::AfterClose));
/// # Ok::<(), stipeharbor::Refusal>(())
/// ```
///
/// After a refusal each list holds, as far as it reaches, what ended before the first place of a 9
/// or 10, or the text limit; other places keep what they had.
#[derive(Clone, Debug, PartialEq, Eq)]
pub struct Radio {
    words: [usize; RADIO_WORDS],
}

impl Radio {
    /// A new text.
    pub fn start() -> Radio {
        let mut words = [0; RADIO_WORDS];
        raw::radio_start(&mut words);
        Radio { words }
    }

    /// Takes a fragment. What ends in it is put behind what was put before, as far as both lists go;
    /// behind the closing call it is [`Refusal::AfterClose`].
    pub fn take(
        &mut self,
        fragment: &[u8],
        verbs: &mut [u8],
        coordinates: &mut [f32],
    ) -> Result<(), Refusal> {
        let number = raw::radio_take(&mut self.words, fragment, verbs, coordinates);
        Refusal::or(number, 0, 0, 0)
    }

    /// Ends the text.
    pub fn close(&mut self, verbs: &mut [u8], coordinates: &mut [f32]) -> Result<Path, Refusal> {
        let mut answer = [0; 3];
        let number = raw::radio_close(&mut self.words, verbs, coordinates, &mut answer);
        let [place, n, m] = answer;
        Refusal::or(number, place, n, m).map(|()| Path {
            verbs: n,
            coordinates: m,
        })
    }
}
