//! A PH-tree: rows at points of 1 to 16 whole numbers, each with a value of 64 bits. Copy this file, and link `libphtree.a`:
//!
//!     rustc --edition 2021 example.rs -L FOLDER -l static=phtree
//!
//! `phtree.h` tells what each call does, visits and takes memory for. After an `Err` the tree is as it was.
#![allow(dead_code)]

use std::cell::UnsafeCell;
use std::fmt;
use std::ops::ControlFlow;
use std::os::raw::c_void;

/// What `ph_tree` is in C: a tree, or none where it is null.
#[repr(C)]
struct Handle {
    at: *mut c_void,
}

/// What a tree is made of: rows, nodes, those of each of two layouts, and the words of 8 bytes of all their records.
#[repr(C)]
#[derive(Clone, Copy, Debug, Default, PartialEq, Eq)]
pub struct Sizes {
    pub rows: u64,
    pub nodes: u64,
    pub linear: u64,
    pub cube: u64,
    pub words: u64,
}

extern "C" {
    fn ph_open(tree: *mut Handle, dims: u32, width: u32, most: u64) -> u32;
    fn ph_close(tree: *mut Handle);
    fn ph_length(tree: *mut Handle, rows: *mut u64) -> u32;
    fn ph_sizes(tree: *mut Handle, sizes: *mut Sizes) -> u32;
    fn ph_put(tree: *mut Handle, point: *const i64, length: usize, value: u64, former: *mut u64) -> u32;
    fn ph_get(tree: *mut Handle, point: *const i64, length: usize, value: *mut u64) -> u32;
    fn ph_remove(tree: *mut Handle, point: *const i64, length: usize, former: *mut u64) -> u32;
    fn ph_move(tree: *mut Handle, from: *const i64, from_length: usize, to: *const i64, to_length: usize) -> u32;
    fn ph_window(
        tree: *mut Handle, low: *const i64, low_length: usize, high: *const i64, high_length: usize, last: *const i64, last_length: usize,
        points: *mut i64, points_length: usize, values: *mut u64, values_length: usize, count: *mut usize, more: *mut u32,
    ) -> u32;
    fn ph_nearest(
        tree: *mut Handle, center: *const i64, length: usize, points: *mut i64, points_length: usize, values: *mut u64, values_length: usize,
        distances: *mut u64, distances_length: usize, count: *mut usize,
    ) -> u32;
}

const REPLACED: u32 = 1;
const ABSENT: u32 = 2;
const TAKEN: u32 = 3;

/// Rows of a page of a window.
const PAGE: usize = 256;

/// Why a call was refused, by the numbers of `enum ph_answer`.
#[derive(Clone, Copy, Debug, PartialEq, Eq)]
pub enum Refusal {
    NoTree,
    NoDimensions,
    NoWidth,
    NoPoint,
    Full,
    NoMemory,
    Other(u32),
}

impl fmt::Display for Refusal {
    fn fmt(&self, f: &mut fmt::Formatter<'_>) -> fmt::Result {
        f.write_str(match self {
            Refusal::NoTree => "there is no tree",
            Refusal::NoDimensions => "the number of dimensions is not 1 to 16",
            Refusal::NoWidth => "the width is not 1 to 62",
            Refusal::NoPoint => "not as many numbers as the tree has dimensions, or one that is no coordinate of its width",
            Refusal::Full => "the tree would have more rows than it may have",
            Refusal::NoMemory => "there is no memory",
            Refusal::Other(answer) => return write!(f, "the library answers {answer}"),
        })
    }
}

impl std::error::Error for Refusal {}

fn checked(answer: u32) -> Result<u32, Refusal> {
    match answer {
        0..=9 => Ok(answer),
        10 => Err(Refusal::NoTree),
        11 => Err(Refusal::NoDimensions),
        12 => Err(Refusal::NoWidth),
        13 => Err(Refusal::NoPoint),
        15 => Err(Refusal::Full),
        16 => Err(Refusal::NoMemory),
        _ => Err(Refusal::Other(answer)),
    }
}

/// What became of a move.
#[derive(Clone, Copy, Debug, PartialEq, Eq)]
pub enum Moved {
    Done,
    Absent,
    Taken,
}

/// A point and its value.
pub type Row<const D: usize> = ([i64; D], u64);

/// A tree of points of `D` coordinates. It may go to another thread, but no two use it at once: the library wants one call at a time, questions too.
pub struct Tree<const D: usize> {
    handle: UnsafeCell<Handle>,
}

// The library keeps nothing of a thread. `UnsafeCell` keeps the tree from being shared.
unsafe impl<const D: usize> Send for Tree<D> {}

impl<const D: usize> Tree<D> {
    /// An empty tree of points of `width` bits, 1 to 62, for at most `most` rows.
    pub fn new(width: u32, most: u64) -> Result<Self, Refusal> {
        let dims = u32::try_from(D).unwrap_or(0);
        let tree = Tree { handle: UnsafeCell::new(Handle { at: std::ptr::null_mut() }) };
        checked(unsafe { ph_open(tree.handle.get(), dims, width, most) })?;
        Ok(tree)
    }

    /// The number of rows.
    pub fn len(&self) -> u64 {
        let mut rows = 0;
        unsafe { ph_length(self.handle.get(), &mut rows) };
        rows
    }

    pub fn is_empty(&self) -> bool {
        self.len() == 0
    }

    /// What the tree is made of. The same rows are the same sizes.
    pub fn sizes(&self) -> Sizes {
        let mut sizes = Sizes::default();
        unsafe { ph_sizes(self.handle.get(), &mut sizes) };
        sizes
    }

    /// Puts a value at a point. Gives the value that stood there.
    pub fn put(&mut self, point: &[i64; D], value: u64) -> Result<Option<u64>, Refusal> {
        let mut former = 0;
        let answer = checked(unsafe { ph_put(self.handle.get(), point.as_ptr(), D, value, &mut former) })?;
        Ok((answer == REPLACED).then_some(former))
    }

    /// The value at a point.
    pub fn get(&self, point: &[i64; D]) -> Result<Option<u64>, Refusal> {
        let mut value = 0;
        let answer = checked(unsafe { ph_get(self.handle.get(), point.as_ptr(), D, &mut value) })?;
        Ok((answer != ABSENT).then_some(value))
    }

    /// Takes the row at a point out. Gives its value.
    pub fn remove(&mut self, point: &[i64; D]) -> Result<Option<u64>, Refusal> {
        let mut former = 0;
        let answer = checked(unsafe { ph_remove(self.handle.get(), point.as_ptr(), D, &mut former) })?;
        Ok((answer != ABSENT).then_some(former))
    }

    /// Moves the row at a point to another, where no other row is.
    pub fn relocate(&mut self, from: &[i64; D], to: &[i64; D]) -> Result<Moved, Refusal> {
        match checked(unsafe { ph_move(self.handle.get(), from.as_ptr(), D, to.as_ptr(), D) })? {
            ABSENT => Ok(Moved::Absent),
            TAKEN => Ok(Moved::Taken),
            _ => Ok(Moved::Done),
        }
    }

    /// Hands the rows between two corners, both inside, to `visit` in Z-order, until it breaks. The tree is asked for a page at a time.
    pub fn each(&self, low: &[i64; D], high: &[i64; D], mut visit: impl FnMut(Row<D>) -> ControlFlow<()>) -> Result<(), Refusal> {
        let (mut points, mut values) = ([[0; D]; PAGE], [0; PAGE]);
        let (mut last, mut last_length, mut count, mut more) = ([0; D], 0, 0, 1);
        while more != 0 {
            checked(unsafe {
                ph_window(
                    self.handle.get(), low.as_ptr(), D, high.as_ptr(), D, last.as_ptr(), last_length,
                    points.as_mut_ptr().cast(), PAGE * D, values.as_mut_ptr(), PAGE, &mut count, &mut more,
                )
            })?;
            for row in points[..count].iter().copied().zip(values) {
                (last, last_length) = (row.0, D);
                if visit(row).is_break() {
                    return Ok(());
                }
            }
        }
        Ok(())
    }

    /// The rows between two corners, both inside, in Z-order.
    pub fn window(&self, low: &[i64; D], high: &[i64; D]) -> Result<Vec<Row<D>>, Refusal> {
        let mut rows = Vec::new();
        self.each(low, high, |row| {
            rows.push(row);
            ControlFlow::Continue(())
        })?;
        Ok(rows)
    }

    /// The `n` rows nearest to a point, each behind the square of its distance, the nearest first and of equal distances in Z-order.
    pub fn nearest(&self, center: &[i64; D], n: usize) -> Result<Vec<(u128, Row<D>)>, Refusal> {
        let room = n.min(usize::try_from(self.len()).unwrap_or(usize::MAX));
        let (mut points, mut values, mut squares, mut count) = (vec![[0; D]; room], vec![0; room], vec![[0u64; 2]; room], 0);
        checked(unsafe {
            ph_nearest(
                self.handle.get(), center.as_ptr(), D, points.as_mut_ptr().cast(), room * D, values.as_mut_ptr(), room,
                squares.as_mut_ptr().cast(), 2 * room, &mut count,
            )
        })?;
        let rows = points.into_iter().zip(values);
        Ok(squares.iter().map(|s| u128::from(s[0]) | u128::from(s[1]) << 64).zip(rows).take(count).collect())
    }
}

impl<const D: usize> Drop for Tree<D> {
    fn drop(&mut self) {
        unsafe { ph_close(self.handle.get()) }
    }
}
