use crate::cord::bounds;
use crate::error::{checked, infallible};
use crate::Cord;
use std::iter::FusedIterator;
use std::ops::RangeBounds;
use zomtsje_sys as sys;

/// The lines of a cord by number, from 0, each found without a walk through the text.
///
/// It shares the cord, and stays its index along [`replace_range`](LineIndex::replace_range). A line ends with `\n`,
/// which the last one may lack.
///
/// ```
/// let mut lines = zomtsje::LineIndex::new("one\ntwo\nthree");
/// assert_eq!(lines.line(2).unwrap(), "three");
/// assert_eq!(lines.line_of(5), 1);
/// lines.replace_range(3..4, " and ");
/// assert_eq!(lines.iter().collect::<Vec<_>>(), ["one and two", "three"]);
/// ```
#[derive(Debug)]
pub struct LineIndex {
    text: Cord,
    handle: sys::zc_lines,
}

impl LineIndex {
    /// The index of a text. Each byte is counted once.
    pub fn new(text: impl Into<Cord>) -> LineIndex {
        let mut made = LineIndex { text: text.into(), handle: sys::zc_lines::EMPTY };
        // SAFETY: both are handles, here and below.
        infallible(checked(unsafe { sys::zc_lines_set(made.text.raw(), &mut made.handle) }));
        made
    }

    /// The text.
    pub fn text(&self) -> &Cord {
        &self.text
    }

    /// The number of lines.
    pub fn len(&self) -> u64 {
        unsafe { sys::zc_lines_count(&self.handle) }
    }

    /// Whether there is no line.
    pub fn is_empty(&self) -> bool {
        self.len() == 0
    }

    /// A line without its end.
    pub fn line(&self, number: u64) -> Option<Cord> {
        let mut line = Cord::new();
        match unsafe { sys::zc_lines_line(&self.handle, self.text.raw(), number, line.raw_mut()) } {
            sys::ZC_PAST_END => None,
            code => Some(infallible(checked(code).map(|()| line))),
        }
    }

    /// The place where a line begins.
    pub fn line_start(&self, number: u64) -> Option<u64> {
        let mut place = 0;
        let code = unsafe { sys::zc_lines_start(&self.handle, self.text.raw(), number, &mut place) };
        (code == sys::ZC_OK).then_some(place)
    }

    /// The line that holds the byte at a place: at or past the end how many lines end.
    pub fn line_of(&self, place: u64) -> u64 {
        let mut number = 0;
        infallible(checked(unsafe { sys::zc_lines_of(&self.handle, self.text.raw(), place, &mut number) }));
        number
    }

    /// How many characters of UTF-8 begin in a range.
    ///
    /// # Panics
    /// Where the range isn't inside the text.
    pub fn utf8_len(&self, range: impl RangeBounds<u64>) -> u64 {
        let (start, end) = bounds(range, self.text.len());
        let mut chars = 0;
        infallible(checked(unsafe {
            sys::zc_lines_utf8(&self.handle, self.text.raw(), start, end - start, &mut chars)
        }));
        chars
    }

    /// Its lines, each made when it is asked for.
    pub fn iter(&self) -> LineIter<'_> {
        LineIter { index: self, next: 0, end: self.len() }
    }

    /// Puts other bytes in place of those of a range.
    ///
    /// # Panics
    /// Where the range isn't inside the text.
    pub fn replace_range(&mut self, range: impl RangeBounds<u64>, with: impl Into<Cord>) {
        let (start, end) = bounds(range, self.text.len());
        let with = with.into();
        let mut after = self.text.clone();
        let inserted = with.len();
        after.replace_range(start..end, with);
        self.become_edited(after, start, end - start, inserted);
    }

    // It is the index of the text after an edit from now on.
    pub(crate) fn become_edited(&mut self, after: Cord, start: u64, removed: u64, inserted: u64) {
        infallible(checked(unsafe {
            sys::zc_lines_edited_from(&mut self.handle, self.text.raw(), after.raw(), start, removed, inserted)
        }));
        self.text = after;
    }
}

impl Drop for LineIndex {
    fn drop(&mut self) {
        unsafe { sys::zc_lines_free(&mut self.handle) }
    }
}

impl<'a> IntoIterator for &'a LineIndex {
    type Item = Cord;
    type IntoIter = LineIter<'a>;

    fn into_iter(self) -> LineIter<'a> {
        self.iter()
    }
}

/// The lines of an index: see [`LineIndex::iter`].
#[derive(Clone, Debug)]
pub struct LineIter<'a> {
    index: &'a LineIndex,
    next: u64,
    end: u64,
}

impl Iterator for LineIter<'_> {
    type Item = Cord;

    fn next(&mut self) -> Option<Cord> {
        if self.next == self.end {
            return None;
        }
        self.next += 1;
        self.index.line(self.next - 1)
    }

    fn size_hint(&self) -> (usize, Option<usize>) {
        let left = usize::try_from(self.end - self.next);
        (left.unwrap_or(usize::MAX), left.ok())
    }
}

impl DoubleEndedIterator for LineIter<'_> {
    fn next_back(&mut self) -> Option<Cord> {
        if self.next == self.end {
            return None;
        }
        self.end -= 1;
        self.index.line(self.end)
    }
}

impl FusedIterator for LineIter<'_> {}
