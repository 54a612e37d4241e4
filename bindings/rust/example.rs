//! Puts three points in a tree, lists those of a window, and finds the nearest one to a point. Then it puts, moves and takes out many.
mod phtree;

use phtree::{Moved, Refusal, Tree};
use std::error::Error;

fn main() -> Result<(), Box<dyn Error>> {
    let mut tree = Tree::<2>::new(32, 100)?;
    for (point, value) in [([3, 4], 17), ([5, 1], 18), ([-7, 2], 19)] {
        tree.put(&point, value)?;
    }
    for (point, value) in tree.window(&[0, 0], &[9, 9])? {
        println!("{point:?} {value}");
    }
    for (square, (point, _)) in tree.nearest(&[0, 0], 1)? {
        println!("nearest {point:?}, its distance squared is {square}");
    }
    many()?;
    println!("no point: {}", tree.get(&[1 << 40, 0]).unwrap_err());
    Ok(())
}

/// Puts a square of points, moves half of them away, and takes the others out.
fn many() -> Result<(), Box<dyn Error>> {
    let mut tree = Tree::<3>::new(16, 1024)?;
    for i in 0..1024 {
        assert_eq!(tree.put(&[i % 32, i / 32, -i], i as u64)?, None);
    }
    assert_eq!(tree.put(&[99, 99, 99], 0), Err(Refusal::Full));
    assert_eq!(tree.window(&[0, 0, -1024], &[31, 31, 0])?.len(), 1024);
    for i in 0..512 {
        assert_eq!(tree.relocate(&[i % 32, i / 32, -i], &[i, i, i])?, Moved::Done);
        assert_eq!(tree.relocate(&[7, 7, 8], &[0, 0, 0])?, Moved::Absent);
    }
    for i in 512..1024 {
        assert_eq!(tree.remove(&[i % 32, i / 32, -i])?, Some(i as u64));
    }
    assert_eq!(tree.relocate(&[1, 1, 1], &[2, 2, 2])?, Moved::Taken);
    assert_eq!((tree.len(), tree.get(&[5, 5, 5])?, tree.get(&[5, 5, 6])?), (512, Some(5), None));
    let sizes = tree.sizes();
    assert_eq!((sizes.rows, sizes.linear + sizes.cube), (512, sizes.nodes));
    assert_eq!(std::thread::spawn(move || tree.len()).join().unwrap_or(0), 512);
    println!("1024 rows were put, and 512 moved and taken out");
    Ok(())
}
