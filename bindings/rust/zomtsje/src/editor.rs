use crate::cord::bounds;
use crate::{Cord, LineIndex};
use std::mem::replace;
use std::ops::RangeBounds;

/// A cord under edit with all its versions, which share what they have in common.
///
/// ```
/// let mut editor = zomtsje::CordEditor::new("one three");
/// editor.insert(4, "two ");
/// assert!(editor.undo());
/// assert_eq!(*editor.text(), "one three");
/// ```
#[derive(Debug, Default)]
pub struct CordEditor {
    now: Cord,
    done: Vec<Version>,
    undone: Vec<Version>,
    lines: Option<LineIndex>,
}

// A text, and the edit of the one that it takes the place of.
#[derive(Clone, Debug)]
struct Version {
    text: Cord,
    start: u64,
    removed: u64,
    inserted: u64,
}

impl CordEditor {
    /// The editor of a text.
    pub fn new(text: impl Into<Cord>) -> CordEditor {
        CordEditor { now: text.into(), ..CordEditor::default() }
    }

    /// The current version.
    pub fn text(&self) -> &Cord {
        &self.now
    }

    /// The lines of the current version. The index is made when it is first asked for, and kept along edits.
    ///
    /// ```
    /// let mut editor = zomtsje::CordEditor::new("one\nthree");
    /// editor.insert(4, "two\n");
    /// assert_eq!(editor.lines().line_of(8), 2);
    /// ```
    pub fn lines(&mut self) -> &LineIndex {
        self.lines.get_or_insert_with(|| LineIndex::new(self.now.clone()))
    }

    /// Puts bytes in front of the one at a place.
    ///
    /// # Panics
    /// Where the place is past the end.
    pub fn insert(&mut self, place: u64, more: impl Into<Cord>) {
        self.replace_range(place..place, more);
    }

    /// Takes out the bytes of a range.
    ///
    /// # Panics
    /// Where the range isn't inside the text.
    pub fn remove(&mut self, range: impl RangeBounds<u64>) {
        self.replace_range(range, Cord::new());
    }

    /// Puts other bytes in place of those of a range.
    ///
    /// # Panics
    /// Where the range isn't inside the text.
    pub fn replace_range(&mut self, range: impl RangeBounds<u64>, with: impl Into<Cord>) {
        let (start, end) = bounds(range, self.now.len());
        let with = with.into();
        let inserted = with.len();
        let mut text = self.now.clone();
        text.replace_range(start..end, with);
        let back = self.turn_into(Version { text, start, removed: end - start, inserted });
        self.done.push(back);
        self.undone.clear();
    }

    /// Goes back to the version before the last change: whether there was one.
    pub fn undo(&mut self) -> bool {
        let Some(next) = self.done.pop() else { return false };
        let back = self.turn_into(next);
        self.undone.push(back);
        true
    }

    /// Goes forward again to the version that was undone last: whether there was one.
    pub fn redo(&mut self) -> bool {
        let Some(next) = self.undone.pop() else { return false };
        let back = self.turn_into(next);
        self.done.push(back);
        true
    }

    // Has another text from now on: gives the way back.
    fn turn_into(&mut self, next: Version) -> Version {
        let Version { text, start, removed, inserted } = next;
        if let Some(lines) = &mut self.lines {
            lines.become_edited(text.clone(), start, removed, inserted);
        }
        Version { text: replace(&mut self.now, text), start, removed: inserted, inserted: removed }
    }
}

impl Clone for CordEditor {
    fn clone(&self) -> CordEditor {
        CordEditor { now: self.now.clone(), done: self.done.clone(), undone: self.undone.clone(), lines: None }
    }
}
