//! What a call is lent: inputs, and rooms of which every number outside the answer is known.

use std::fmt::Debug;

use crate::pages::Pages;

/// Where inputs and rooms stand.
#[derive(Clone, Copy, PartialEq, Eq)]
pub enum Style {
    /// Rooms between guards; inputs where they are.
    Guards,
    /// Rooms and inputs end at an unreadable page; inputs cannot be written.
    Pages,
    /// Rooms and inputs are allocations of exactly their length, for memcheck.
    Exact,
}

/// Guard numbers on each side of a room.
const GUARD: usize = 16;

pub trait Number: Copy + PartialEq + Debug {
    fn from_noise(noise: u64) -> Self;
}

impl Number for u8 {
    fn from_noise(noise: u64) -> Self {
        noise as u8
    }
}

impl Number for u32 {
    fn from_noise(noise: u64) -> Self {
        noise as u32
    }
}

impl Number for usize {
    fn from_noise(noise: u64) -> Self {
        noise as usize
    }
}

impl Number for i64 {
    fn from_noise(noise: u64) -> Self {
        noise as i64
    }
}

/// What stands at a place before the call, another number at each place and in each case.
fn pattern<T: Number>(place: usize, salt: u64) -> T {
    T::from_noise((salt ^ place as u64).wrapping_mul(0x9E37_79B9_7F4A_7C15) >> 24)
}

/// An empty slice is lent as null in every other case.
fn is_null(length: usize, salt: u64) -> bool {
    length == 0 && salt.is_multiple_of(2)
}

/// An input.
pub struct Lent<T> {
    style: Style,
    exact: Box<[T]>,
    pages: Option<Pages>,
}

impl<T: Number> Lent<T> {
    pub fn new(style: Style) -> Self {
        Self {
            style,
            exact: Box::new([]),
            pages: None,
        }
    }

    /// Pointer and length. The pointer lasts until the next `lend`, and no longer than the numbers.
    pub fn lend(&mut self, numbers: &[T], salt: u64) -> (*const T, usize) {
        if is_null(numbers.len(), salt) {
            return (std::ptr::null(), 0);
        }
        let start = match self.style {
            Style::Guards => numbers.as_ptr(),
            Style::Exact => {
                self.exact = numbers.into();
                self.exact.as_ptr()
            }
            Style::Pages => {
                let bytes = size_of_val(numbers);
                let pages = Pages::of_at_least(&mut self.pages, bytes);
                // SAFETY: the pages hold that many bytes, and nobody else has them.
                unsafe {
                    let start = pages.last(bytes).cast::<T>();
                    start.copy_from_nonoverlapping(numbers.as_ptr(), numbers.len());
                }
                pages.last_to_read(bytes).cast()
            }
        };
        (start, numbers.len())
    }
}

/// A room.
pub struct Room<T> {
    style: Style,
    cells: Vec<T>,
    pages: Option<Pages>,
    length: usize,
    salt: u64,
}

impl<T: Number> Room<T> {
    pub fn new(style: Style) -> Self {
        Self {
            style,
            cells: Vec::new(),
            pages: None,
            length: 0,
            salt: 0,
        }
    }

    /// A room of this length, filled: pointer and length. The pointer lasts until the next `lend`.
    pub fn lend(&mut self, length: usize, salt: u64) -> (*mut T, usize) {
        (self.length, self.salt) = (length, salt);
        let (before, whole) = (self.before(), self.whole());
        match self.style {
            Style::Guards if self.cells.len() < whole => {
                self.cells.resize(2 * whole, T::from_noise(0));
            }
            Style::Exact => {
                self.cells = Vec::with_capacity(whole);
                self.cells.resize(whole, T::from_noise(0));
            }
            Style::Pages => {
                Pages::of_at_least(&mut self.pages, whole * size_of::<T>());
            }
            Style::Guards => {}
        }
        let start = self.start();
        for place in 0..whole {
            // SAFETY: `start` begins `whole` cells.
            unsafe { start.add(place).write(pattern(place, salt)) };
        }
        if is_null(length, salt) {
            return (std::ptr::null_mut(), 0);
        }
        // SAFETY: the guard before is part of the cells.
        (unsafe { start.add(before) }, length)
    }

    /// That the room holds this answer and is otherwise unchanged, guards included.
    pub fn holds(&mut self, name: &str, answer: &[T]) -> Result<(), String> {
        let before = self.before();
        let holds = self.cells().iter().enumerate().position(|(place, cell)| {
            let answered = place.checked_sub(before).and_then(|at| answer.get(at));
            *cell != answered.copied().unwrap_or(pattern(place, self.salt))
        });
        self.told(name, holds)
    }

    /// That the room is unchanged but for its first numbers.
    pub fn is_kept(&mut self, name: &str, but: usize) -> Result<(), String> {
        let touched = self.before()..self.before() + but;
        let kept = self.cells().iter().enumerate().position(|(place, cell)| {
            !touched.contains(&place) && *cell != pattern(place, self.salt)
        });
        self.told(name, kept)
    }

    fn told(&self, name: &str, differs: Option<usize>) -> Result<(), String> {
        let Some(place) = differs else { return Ok(()) };
        Err(format!(
            "room {name} of {} holds {:?} at {}",
            self.length,
            self.cells()[place],
            place as isize - self.before() as isize
        ))
    }

    fn before(&self) -> usize {
        if self.style == Style::Exact { 0 } else { GUARD }
    }

    /// The room with its guards; behind a room that ends at an unreadable page there is none.
    fn whole(&self) -> usize {
        let behind = if self.style == Style::Guards {
            GUARD
        } else {
            0
        };
        self.before() + self.length + behind
    }

    fn start(&mut self) -> *mut T {
        let bytes = self.whole() * size_of::<T>();
        match &mut self.pages {
            Some(pages) => pages.last(bytes).cast(),
            None => self.cells.as_mut_ptr(),
        }
    }

    fn cells(&self) -> &[T] {
        match &self.pages {
            Some(pages) => {
                let bytes = self.whole() * size_of::<T>();
                // SAFETY: `lend` has written the last `whole` cells of the pages.
                unsafe {
                    std::slice::from_raw_parts(pages.last_to_read(bytes).cast(), self.whole())
                }
            }
            None => &self.cells[..self.whole()],
        }
    }
}

#[cfg(test)]
mod tests {
    use super::{Lent, Room, Style};

    const STYLES: [Style; 3] = [Style::Guards, Style::Pages, Style::Exact];

    #[test]
    fn a_room_holds_its_answer_and_nothing_else() {
        for style in STYLES {
            let mut room = Room::<u32>::new(style);
            let (start, length) = room.lend(3, 1);
            assert_eq!(length, 3);
            assert!(room.holds("room", &[]).is_ok());
            // SAFETY: the room has three numbers.
            unsafe { start.write(7) };
            assert!(room.holds("room", &[7]).is_ok());
            assert!(room.holds("room", &[8]).is_err());
            assert!(room.holds("room", &[]).is_err());
            assert!(room.is_kept("room", 1).is_ok());
            assert!(room.is_kept("room", 0).is_err());
            // SAFETY: as above.
            unsafe { *start.add(2) ^= 1 };
            assert!(room.holds("room", &[7]).is_err());
        }
    }

    #[test]
    fn a_guard_that_is_written_is_seen() {
        for (style, place) in [(Style::Guards, -1), (Style::Guards, 3), (Style::Pages, -1)] {
            let mut room = Room::<u8>::new(style);
            let (start, _) = room.lend(3, 1);
            // SAFETY: guards stand there.
            unsafe { *start.offset(place) ^= 1 };
            assert!(room.holds("room", &[]).is_err());
        }
    }

    #[test]
    fn what_is_lent_is_there_to_read() {
        for style in STYLES {
            let mut lent = Lent::<i64>::new(style);
            for numbers in [&[1, 2, 3][..], &[4; 5_000]] {
                let (start, length) = lent.lend(numbers, 1);
                // SAFETY: it was just lent.
                assert_eq!(
                    unsafe { std::slice::from_raw_parts(start, length) },
                    numbers
                );
            }
            assert_eq!(lent.lend(&[], 2), (std::ptr::null(), 0));
        }
    }
}
