//! Books without weights, from before samples had any, and their way into [`Book`].

use crate::{judged, lend, sys, Book, Refusal, MOST, SUMS};

/// A book of two columns, which has no weights: for a season that was begun with one. It takes what
/// such a book took, frames of version 1 only, but for lines: to add these carry it over first, or
/// add the readings one by one. To read it, [carry](TwoColumnBook::carry) it.
///
/// ```
/// use stakebook::{Refusal, TwoColumnBook};
///
/// let mut book = TwoColumnBook::with_capacity(100);
/// book.add(0.0, 1.0)?;
/// book.add(1.0, 3.0)?;
/// // Mid season, the station is updated: the samples so far have weight 1.
/// let mut book = book.carry().expect("as many samples as there is room for");
/// book.add_weighted(2.0, 5.0, 2.0)?;
/// assert_eq!(book.ws(), [1.0, 1.0, 2.0]);
/// assert_eq!(book.fit(1)?.coefficients(), [1.0, 2.0]);
/// # Ok::<(), Refusal>(())
/// ```
#[derive(Debug, Clone, PartialEq)]
pub struct TwoColumnBook {
    count: usize,
    xs: Vec<f64>,
    ys: Vec<f64>,
    sums: [f64; SUMS],
}

/// A book that could not be carried, as it was, and why.
#[derive(Debug, Clone, PartialEq)]
pub struct NotCarried {
    pub book: Box<TwoColumnBook>,
    pub refusal: Refusal,
}

impl std::fmt::Display for NotCarried {
    fn fmt(&self, f: &mut std::fmt::Formatter<'_>) -> std::fmt::Result {
        write!(f, "the book is not carried: {}", self.refusal)
    }
}

impl std::error::Error for NotCarried {}

impl TwoColumnBook {
    /// An empty book with room for so many samples, at most 4,096.
    pub fn with_capacity(capacity: usize) -> TwoColumnBook {
        let room = capacity.min(MOST);
        let (xs, ys) = (vec![0.0; room], vec![0.0; room]);
        let mut book = TwoColumnBook { count: 0, xs, ys, sums: [0.0; SUMS] };
        // SAFETY: the sums are this book's own, of the length given.
        let answer = unsafe { sys::stakebook_two_column_open(book.sums.as_mut_ptr(), SUMS) };
        book.count = sys::count(answer);
        book
    }

    /// The book that a station kept: its count, its whole columns, of which the first `count` places are
    /// the samples, and its sums, all as the last call left them. Nothing is judged before the next
    /// call, which is refused by [`Refusal::Memory`] where the count is above capacity.
    pub fn from_parts(
        count: usize,
        xs: Vec<f64>,
        ys: Vec<f64>,
        sums: [f64; SUMS],
    ) -> TwoColumnBook {
        TwoColumnBook { count, xs, ys, sums }
    }

    /// What [`from_parts`](TwoColumnBook::from_parts) takes.
    pub fn into_parts(self) -> (usize, Vec<f64>, Vec<f64>, [f64; SUMS]) {
        (self.count, self.xs, self.ys, self.sums)
    }

    /// How many samples the book holds.
    pub fn len(&self) -> usize {
        self.count
    }

    pub fn is_empty(&self) -> bool {
        self.count == 0
    }

    /// The shorter of the columns, at most 4,096.
    pub fn capacity(&self) -> usize {
        self.xs.len().min(self.ys.len()).min(MOST)
    }

    fn changed(&mut self, answer: u64) -> Result<(), Refusal> {
        self.count = sys::count(judged(answer)?);
        Ok(())
    }

    /// One sample at the end. Refused by [`Refusal::NotFinite`] and [`Refusal::Full`].
    pub fn add(&mut self, x: f64, y: f64) -> Result<(), Refusal> {
        let answer = lend!(stakebook_two_column_add(self.count, x, y; self.xs, self.ys, self.sums));
        self.changed(answer)
    }

    /// Sample `i` gets a new y. Refused by [`Refusal::NotFinite`] and [`Refusal::NoSuchSample`].
    pub fn correct(&mut self, i: usize, y: f64) -> Result<(), Refusal> {
        let answer =
            lend!(stakebook_two_column_correct(self.count, i, y; self.xs, self.ys, self.sums));
        self.changed(answer)
    }

    /// Sample `i` goes, and later ones move down one. Refused by [`Refusal::NoSuchSample`].
    pub fn withdraw(&mut self, i: usize) -> Result<(), Refusal> {
        let answer =
            lend!(stakebook_two_column_withdraw(self.count, i; self.xs, self.ys, self.sums));
        self.changed(answer)
    }

    /// All samples of a frame of version 1 at the end, or none. Refused by [`Refusal::FrameLength`],
    /// [`Refusal::FrameVersion`], [`Refusal::NotFinite`] and [`Refusal::Full`]; one of version 2 by
    /// either of the first two.
    pub fn add_frame(&mut self, frame: &[u8]) -> Result<(), Refusal> {
        let answer = lend!(stakebook_two_column_add_frame(
            self.count, frame.as_ptr(), frame.len();
            self.xs, self.ys, self.sums
        ));
        self.changed(answer)
    }

    /// The same book with weights, 1 for each sample: columns and sums are handed on as they are, and
    /// what is done from here on gives what it would had all samples been added to a [`Book`]. Refused
    /// by [`Refusal::Memory`], where the count is above capacity, as only a book
    /// [from parts](TwoColumnBook::from_parts) can have it; then the book is handed back as it was.
    pub fn carry(mut self) -> Result<Book, NotCarried> {
        // No shorter than the others, so that the capacity stays.
        let mut ws = vec![0.0; self.xs.len().max(self.ys.len())];
        let answer = lend!(stakebook_carry(self.count; self.xs, self.ys, ws, self.sums));
        match judged(answer) {
            Ok(answer) => {
                let columns = [self.xs, self.ys, ws];
                Ok(Book::carried(sys::count(answer), columns, self.sums))
            }
            Err(refusal) => Err(NotCarried { book: Box::new(self), refusal }),
        }
    }
}
