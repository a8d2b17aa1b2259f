//! Lampholly from Rust: the eleven calls of `include/lampholly.h`, declared once and wrapped. Slices go in, an enum comes out;
//! its cases are those of the library's own answers. The header says what each call does and when it refuses.

/// The words or bytes that always suffice for a table, a list, a text, the triples of a screenful, a picture, and either area of
/// a rewriting, which takes no fewer.
pub const TABLE_WORDS: usize = 1524;
pub const LIST_WORDS: usize = 131_080;
pub const TEXT_BYTES: usize = 16_384;
pub const TRIPLE_WORDS: usize = 1500;
pub const PICTURE_WORDS: usize = 16_384;
pub const REWRITE_WORDS: usize = 24_573;

/// What stands in a picture where no frame is inside.
pub const NO_FRAME: i32 = i32::MIN;

/// Both bounds of an axis belong to the window.
#[repr(C)]
#[derive(Clone, Copy, Debug, PartialEq, Eq)]
pub struct Window {
    pub xlo: i32,
    pub xhi: i32,
    pub ylo: i32,
    pub yhi: i32,
    pub zlo: i32,
    pub zhi: i32,
}

impl Window {
    /// Every column, code and frame number.
    pub const FULL: Window = Window {
        xlo: -32768,
        xhi: 32767,
        ylo: -32768,
        yhi: 32767,
        zlo: -1048576,
        zhi: 1048575,
    };
}

/// The columns and codes of a picture; both bounds of a side belong to it.
#[repr(C)]
#[derive(Clone, Copy, Debug, PartialEq, Eq)]
pub struct Rectangle {
    pub xlo: i32,
    pub xhi: i32,
    pub ylo: i32,
    pub yhi: i32,
}

/// Column, code and frame number.
#[derive(Clone, Copy, Debug, PartialEq, Eq)]
pub struct Point {
    pub x: i32,
    pub y: i32,
    pub z: i32,
}

/// Where a frame stands: the column of its first sample, and its number. Of a screenful, it is the place of the first frame.
#[derive(Clone, Copy, Debug, PartialEq, Eq)]
pub struct Place {
    pub first: i32,
    pub frame: i32,
}

/// A refusal has changed no word of a lent buffer.
#[derive(Clone, Copy, Debug, PartialEq, Eq)]
pub struct Refusal {
    pub number: u64,
    pub value: u64,
}

#[derive(Clone, Copy, Debug, PartialEq, Eq)]
pub enum Checked {
    Sound,
    Refused(Refusal),
}

#[derive(Clone, Copy, Debug, PartialEq, Eq)]
pub enum Located {
    Inside,
    Outside,
    Refused(Refusal),
}

/// A hit tells the position of its first inside sample and how many there are.
#[derive(Clone, Copy, Debug, PartialEq, Eq)]
pub enum Searched {
    Clear,
    Hit { first: usize, count: usize },
    Refused(Refusal),
}

/// So many words or bytes were written, from the start of the buffer.
#[derive(Clone, Copy, Debug, PartialEq, Eq)]
pub enum Written {
    Wrote(usize),
    Refused(Refusal),
}

pub fn check_table(table: &[i32]) -> Checked {
    // SAFETY: here and below, each pointer comes from a slice and goes with its length, and what is written is borrowed mutably.
    match unsafe { calls::lampholly_check(table.as_ptr(), table.len()) }.told() {
        Err(refusal) => Checked::Refused(refusal),
        Ok(_) => Checked::Sound,
    }
}

pub fn tree_point(table: &[i32], point: Point) -> Located {
    located(unsafe {
        calls::lampholly_tree_point(table.as_ptr(), table.len(), point.x, point.y, point.z)
    })
}

/// A sample is inside where some code that its column holds is: those from the code before, itself left out unless equal, to
/// its own.
pub fn tree_search(table: &[i32], codes: &[i16], place: Place) -> Searched {
    searched(unsafe {
        calls::lampholly_tree_search(
            table.as_ptr(),
            table.len(),
            codes.as_ptr(),
            codes.len(),
            place.first,
            place.frame,
        )
    })
}

pub fn make_list(table: &[i32], window: Window, list: &mut [u64]) -> Written {
    written(unsafe {
        calls::lampholly_make_list(
            table.as_ptr(),
            table.len(),
            window,
            list.as_mut_ptr(),
            list.len(),
        )
    })
}

/// The list belongs to its table: one of another zone with as many primitives is not noticed.
pub fn list_point(table: &[i32], list: &[u64], point: Point) -> Located {
    located(unsafe {
        calls::lampholly_list_point(
            table.as_ptr(),
            table.len(),
            list.as_ptr(),
            list.len(),
            point.x,
            point.y,
            point.z,
        )
    })
}

/// The list belongs to its table, as for [`list_point`].
pub fn list_search(table: &[i32], list: &[u64], codes: &[i16], place: Place) -> Searched {
    let (first, frame) = (place.first, place.frame);
    searched(unsafe {
        calls::lampholly_list_search(
            table.as_ptr(),
            table.len(),
            list.as_ptr(),
            list.len(),
            codes.as_ptr(),
            codes.len(),
            first,
            frame,
        )
    })
}

/// Searches frames of one length, laid end to end in `codes`, and writes three words for each; [`told`] reads them. The list
/// belongs to its table, as for [`list_point`].
pub fn list_search_frames(
    table: &[i32],
    list: &[u64],
    codes: &[i16],
    frames: usize,
    place: Place,
    triples: &mut [u32],
) -> Written {
    written(unsafe {
        calls::lampholly_list_search_frames(
            table.as_ptr(),
            table.len(),
            list.as_ptr(),
            list.len(),
            codes.as_ptr(),
            codes.len(),
            frames,
            place.first,
            place.frame,
            triples.as_mut_ptr(),
            triples.len(),
        )
    })
}

/// What the words that [`list_search_frames`] wrote tell, frame by frame.
pub fn told(triples: &[u32]) -> impl Iterator<Item = Searched> + '_ {
    triples.chunks_exact(3).map(|triple| match triple[0] {
        0 => Searched::Clear,
        1 => Searched::Hit {
            first: triple[1] as usize,
            count: triple[2] as usize,
        },
        raised => Searched::Refused(Refusal {
            number: u64::from(raised - 100),
            value: u64::from(triple[1]),
        }),
    })
}

/// Writes for each place of the rectangle the newest frame of the list's window, or [`NO_FRAME`], row by row from the highest
/// code down. The list belongs to its table, as for [`list_point`].
pub fn list_waterfall(
    table: &[i32],
    list: &[u64],
    rectangle: Rectangle,
    picture: &mut [i32],
) -> Written {
    written(unsafe {
        calls::lampholly_list_waterfall(
            table.as_ptr(),
            table.len(),
            list.as_ptr(),
            list.len(),
            rectangle,
            picture.as_mut_ptr(),
            picture.len(),
        )
    })
}

/// Writes the finished tree, three words a row, and leaves the work area 0 to its end.
pub fn rewrite_tree(table: &[i32], tree: &mut [i32], work: &mut [i32]) -> Written {
    written(unsafe {
        calls::lampholly_rewrite(
            table.as_ptr(),
            table.len(),
            tree.as_mut_ptr(),
            tree.len(),
            work.as_mut_ptr(),
            work.len(),
        )
    })
}

pub fn read_text(text: &[u8], table: &mut [i32]) -> Written {
    written(unsafe {
        calls::lampholly_read_text(text.as_ptr(), text.len(), table.as_mut_ptr(), table.len())
    })
}

pub fn write_text(table: &[i32], text: &mut [u8]) -> Written {
    written(unsafe {
        calls::lampholly_write_text(table.as_ptr(), table.len(), text.as_mut_ptr(), text.len())
    })
}

fn located(answer: calls::Answer) -> Located {
    match answer.told() {
        Err(refusal) => Located::Refused(refusal),
        Ok((0, _)) => Located::Outside,
        Ok(_) => Located::Inside,
    }
}

fn searched(answer: calls::Answer) -> Searched {
    match answer.told() {
        Err(refusal) => Searched::Refused(refusal),
        Ok((_, 0)) => Searched::Clear,
        Ok((first, count)) => Searched::Hit { first, count },
    }
}

fn written(answer: calls::Answer) -> Written {
    match answer.told() {
        Err(refusal) => Written::Refused(refusal),
        Ok((size, _)) => Written::Wrote(size),
    }
}

mod calls {
    use super::{Rectangle, Refusal, Window};

    #[repr(C)]
    pub struct Answer {
        refusal: u64,
        value: u64,
        count: u64,
    }

    impl Answer {
        /// The value and the count, or the refusal.
        pub fn told(&self) -> Result<(usize, usize), Refusal> {
            match self.refusal {
                0 => Ok((self.value as usize, self.count as usize)),
                number => Err(Refusal {
                    number,
                    value: self.value,
                }),
            }
        }
    }

    #[link(name = "zone_c", kind = "static")]
    extern "C" {
        pub fn lampholly_check(table: *const i32, words: usize) -> Answer;
        pub fn lampholly_tree_point(
            table: *const i32,
            words: usize,
            x: i32,
            y: i32,
            z: i32,
        ) -> Answer;
        pub fn lampholly_tree_search(
            table: *const i32,
            words: usize,
            codes: *const i16,
            samples: usize,
            first: i32,
            frame: i32,
        ) -> Answer;
        pub fn lampholly_make_list(
            table: *const i32,
            words: usize,
            window: Window,
            list: *mut u64,
            room: usize,
        ) -> Answer;
        pub fn lampholly_list_point(
            table: *const i32,
            words: usize,
            list: *const u64,
            list_words: usize,
            x: i32,
            y: i32,
            z: i32,
        ) -> Answer;
        pub fn lampholly_list_search(
            table: *const i32,
            words: usize,
            list: *const u64,
            list_words: usize,
            codes: *const i16,
            samples: usize,
            first: i32,
            frame: i32,
        ) -> Answer;
        pub fn lampholly_read_text(
            text: *const u8,
            bytes: usize,
            table: *mut i32,
            room: usize,
        ) -> Answer;
        pub fn lampholly_write_text(
            table: *const i32,
            words: usize,
            text: *mut u8,
            room: usize,
        ) -> Answer;
        pub fn lampholly_list_search_frames(
            table: *const i32,
            words: usize,
            list: *const u64,
            list_words: usize,
            codes: *const i16,
            samples: usize,
            frames: usize,
            first: i32,
            frame: i32,
            triples: *mut u32,
            room: usize,
        ) -> Answer;
        pub fn lampholly_list_waterfall(
            table: *const i32,
            words: usize,
            list: *const u64,
            list_words: usize,
            rectangle: Rectangle,
            picture: *mut i32,
            room: usize,
        ) -> Answer;
        pub fn lampholly_rewrite(
            table: *const i32,
            words: usize,
            tree: *mut i32,
            room: usize,
            work: *mut i32,
            work_room: usize,
        ) -> Answer;
    }
}

#[cfg(test)]
mod tests {
    use super::*;

    const Q: &[u8] = include_bytes!("../../q.zone");
    const START: Place = Place { first: 0, frame: 0 };

    fn q() -> [i32; 84] {
        let mut table = [0; 84];
        assert_eq!(read_text(Q, &mut table), Written::Wrote(84));
        table
    }

    fn q_list() -> [u64; 12] {
        let mut list = [0; 12];
        let window = Window {
            xlo: -100,
            xhi: 100,
            ..Window::FULL
        };
        assert_eq!(make_list(&q(), window, &mut list), Written::Wrote(12));
        list
    }

    fn refused(number: u64, value: u64) -> Refusal {
        Refusal { number, value }
    }

    fn screenful(codes: &[i16], frames: usize, place: Place, triples: &mut [u32]) -> Written {
        list_search_frames(&q(), &q_list(), codes, frames, place, triples)
    }

    /// The triples of two frames, and a word more, which stays 9.
    fn two_frames(codes: &[i16], first: i32, frame: i32) -> [u32; 7] {
        let mut triples = [9; 7];
        let answer = screenful(codes, 2, Place { first, frame }, &mut triples);
        assert_eq!(answer, Written::Wrote(6));
        triples
    }

    #[test]
    fn lists_q() {
        let mut list = [7; 13];
        assert_eq!(make_list(&q(), Window::FULL, &mut list), Written::Wrote(12));
        assert_eq!(list, [2, 0, 65535, 0, 65535, 0, 2097151, 4, 9, 2, 12, 0, 7]);
        assert_eq!(
            make_list(&q(), Window::FULL, &mut list[..11]),
            Written::Refused(refused(8, 12))
        );
    }

    #[test]
    fn answers_by_tree_and_by_list() {
        let (table, list) = (q(), q_list());
        let zeros = [0; 30];
        let hit = Searched::Hit { first: 8, count: 7 };
        assert_eq!(tree_search(&table, &zeros, START), hit);
        assert_eq!(list_search(&table, &list, &zeros, START), hit);
        assert_eq!(
            list_search(
                &table,
                &list,
                &zeros,
                Place {
                    first: 26,
                    frame: 0
                }
            ),
            Searched::Clear
        );
        assert_eq!(
            list_search(
                &table,
                &list,
                &zeros,
                Place {
                    first: 80,
                    frame: 0
                }
            ),
            Searched::Refused(refused(10, 21))
        );
        assert_eq!(
            tree_point(&table, Point { x: 8, y: 0, z: 0 }),
            Located::Inside
        );
        assert_eq!(
            list_point(&table, &list, Point { x: 9, y: 0, z: 0 }),
            Located::Outside
        );
        assert_eq!(
            list_point(&table, &list, Point { x: 101, y: 0, z: 0 }),
            Located::Refused(refused(10, 0))
        );
    }

    #[test]
    fn searches_a_screenful() {
        let zeros = [0; 60];
        assert_eq!(two_frames(&zeros, 0, 0), [1, 8, 7, 0, 0, 0, 9]);
        assert_eq!(two_frames(&zeros, 80, 0), [110, 21, 0, 110, 21, 0, 9]);
        assert_eq!(two_frames(&zeros, 0, 1_048_575), [0, 0, 0, 112, 2, 0, 9]);
        assert_eq!(two_frames(&zeros, 0, i32::MAX), [112, 2, 0, 112, 2, 0, 9]);
        assert_eq!(two_frames(&[], 0, 0), [112, 0, 0, 112, 0, 0, 9]);
        let hit = Searched::Hit { first: 8, count: 7 };
        let out_of_window = Searched::Refused(refused(10, 21));
        assert!(told(&[1, 8, 7, 0, 0, 0, 110, 21, 0]).eq([hit, Searched::Clear, out_of_window]));
    }

    #[test]
    fn refuses_a_screenful() {
        let (zeros, mut triples) = ([0; 61], [9; TRIPLE_WORDS]);
        for (samples, frames) in [(60, 0), (60, 501), (0, 501), (61, 2)] {
            let answer = screenful(&zeros[..samples], frames, START, &mut triples);
            assert_eq!(answer, Written::Refused(refused(12, 0)));
        }
        let answer = screenful(&zeros[..60], 2, START, &mut triples[..5]);
        assert_eq!(answer, Written::Refused(refused(8, 6)));
        assert_eq!(triples, [9; TRIPLE_WORDS]);
    }

    #[test]
    fn draws_q() {
        let (table, list) = (q(), q_list());
        let mut picture = [7; 13];
        let rectangle = Rectangle {
            xlo: 7,
            xhi: 10,
            ylo: -1,
            yhi: 1,
        };
        let mut right = [NO_FRAME; 13];
        (right[5], right[12]) = (0, 7);
        assert_eq!(
            list_waterfall(&table, &list, rectangle, &mut picture[..11]),
            Written::Refused(refused(8, 12))
        );
        assert_eq!(picture, [7; 13]);
        assert_eq!(
            list_waterfall(&table, &list, rectangle, &mut picture),
            Written::Wrote(12)
        );
        assert_eq!(picture, right);
        let wide = Rectangle {
            xhi: 135,
            ..rectangle
        };
        assert_eq!(
            list_waterfall(&table, &list, wide, &mut picture),
            Written::Refused(refused(6, 1))
        );
    }

    #[test]
    fn rewrites_q() {
        let (mut tree, mut work) = ([7; REWRITE_WORDS], [7; REWRITE_WORDS]);
        for (room, work_room) in [(24_572, 24_573), (24_573, 24_572)] {
            let answer = rewrite_tree(&q(), &mut tree[..room], &mut work[..work_room]);
            assert_eq!(answer, Written::Refused(refused(8, 24_573)));
        }
        assert_eq!((tree, work), ([7; REWRITE_WORDS], [7; REWRITE_WORDS]));
        let answer = rewrite_tree(&q(), &mut tree, &mut work);
        assert_eq!(answer, Written::Wrote(27));
        let mut right = [7; REWRITE_WORDS];
        right[..15].copy_from_slice(&[0, 0, 0, 0, 3, 0, 4, 0, 1, 0, 1, 0, 5, 2, 3]);
        right[15..27].copy_from_slice(&[0, 2, 0, 0, 3, 0, 4, 5, 6, 3, 4, 7]);
        assert_eq!((tree, work), (right, [0; REWRITE_WORDS]));
    }

    /// Adds a row and tells its number.
    fn add(table: &mut Vec<i32>, words: [i32; 3]) -> i32 {
        table.extend(words);
        table.extend([0; 9]);
        table.len() as i32 / 12 - 1
    }

    /// Unions of so many boxes each, intersected.
    fn unions(sizes: &[usize]) -> Vec<i32> {
        let mut table = Vec::new();
        let mut whole = None;
        for &size in sizes {
            let mut union = add(&mut table, [0, 0, 9]);
            for _ in 1..size {
                let more = add(&mut table, [0, 0, 9]);
                union = add(&mut table, [3, union, more]);
            }
            whole = Some(match whole {
                None => union,
                Some(before) => add(&mut table, [4, before, union]),
            });
        }
        table
    }

    #[test]
    fn refuses_to_rewrite() {
        for (sizes, refusal) in [
            (&[17][..], refused(14, 17)),
            (&[3, 3, 3, 3, 4], refused(15, 324)),
            (&[2; 8], refused(8, 24_573)),
        ] {
            let answer = rewrite_tree(&unions(sizes), &mut [], &mut []);
            assert_eq!(answer, Written::Refused(refusal));
        }
    }

    #[test]
    fn checks_and_writes() {
        let (table, mut text) = (q(), [0; TEXT_BYTES]);
        assert_eq!(check_table(&table), Checked::Sound);
        assert_eq!(check_table(&table[..83]), Checked::Refused(refused(1, 83)));
        assert_eq!(check_table(&[]), Checked::Refused(refused(1, 0)));
        assert_eq!(write_text(&table, &mut text), Written::Wrote(Q.len()));
        assert_eq!(&text[..Q.len()], Q);
        assert_eq!(
            read_text(b"zone 7\n", &mut []),
            Written::Refused(refused(13, 1))
        );
    }
}
