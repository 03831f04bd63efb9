//! The connected parts of a graph.
ghost use Rattle.std.specs.Prelude.{◌≡◌};

use ioc_graph::{Edge, are_below, parts, parts_of_all};
use ioc_names::RecordNo;
use std::alloc::{AllocError, Global};
use std::test::Fail;

// The ends of the edges, the number of records, the number of each one's part, and a count that is
// too low for the ends, if there are any.
static PARTS: [(&[(usize, usize)], usize, &[usize], usize); 2] = [
    (&[], 0, &[], 0),
    // A loop, a pair and a single record.
    (
        &[(4, 0), (2, 4), (0, 2), (5, 3), (1, 1)],
        6,
        &[0, 1, 0, 3, 0, 3],
        5,
    ),
];

fn edge(from: usize, to: usize) -> Edge
    ensures { result ≡ record { from = from; to = to } }
{
    Edge {
        from: RecordNo::new(from),
        to: RecordNo::new(to),
    }
}

fn edges_between(alloc: Global, ends: &[(usize, usize)]) -> Result<Vec<Edge>, AllocError> {
    let mut edges = Vec::new(alloc);
    for (from, to) in ends {
        edges.push(edge(*from, *to))?;
    }
    Ok(edges)
}

// Returns the number of each record's part, or none if an end isn't below the count.
fn numbers(alloc: Global, edges: &[Edge], count: usize) -> Result<Vec<usize>, AllocError> {
    if !are_below(edges, count) {
        return Ok(Vec::new(alloc));
    }
    parts_of_all(alloc, edges, count)
}

// Returns whether these are the parts, and an end is too high for fewer records.
fn are_parts(
    alloc: Global,
    ends: &[(usize, usize)],
    count: usize,
    wanted: &[usize],
    fewer: usize,
) -> Result<bool, AllocError> {
    let edges = edges_between(alloc, ends)?;
    let found = numbers(alloc, edges.as_slice(), count)?;
    Ok(found.as_slice() == wanted && are_below(edges.as_slice(), fewer) == ends.is_empty())
}

// Returns whether the parts are right if there are gaps between the records' numbers, and if there
// are no records.
fn are_parts_with_gaps(alloc: Global) -> Result<bool, AllocError> {
    let nodes = [RecordNo::new(3), RecordNo::new(10), RecordNo::new(11)];
    let found = parts(alloc, &[edge(11, 3)], &nodes)?;
    let none = parts(alloc, &[], &[])?;
    Ok(found.as_slice() == [0, 1, 0].as_slice() && none.is_empty())
}

#[test]
fn parts_of_records(rt: HostRuntime) -> Result<(), Fail> {
    for (ends, count, wanted, fewer) in &PARTS {
        assert!(rt;
            are_parts(rt.alloc(), ends, *count, wanted, *fewer)?,
            "of {count}"
        );
    }
    assert!(rt; are_parts_with_gaps(rt.alloc())?);
    Ok(())
}

// Returns a chain of 100,000 records, with its links in a shuffled order.
fn chain(alloc: Global) -> Result<Vec<Edge>, AllocError> {
    let mut edges = Vec::with_capacity(alloc, 99_999)?;
    for i in 0..99_999usize {
        let from = i * 7919 % 99_999;
        edges.push(edge(from, from + 1))?;
    }
    Ok(edges)
}

// Returns whether all the numbers are 0.
fn are_zeros(numbers: &[usize]) -> bool {
    for number in numbers {
        if *number != 0 {
            return false;
        }
    }
    true
}

#[test]
fn long_chain_is_one_part(rt: HostRuntime) -> Result<(), Fail> {
    let edges = chain(rt.alloc())?;
    let found = numbers(rt.alloc(), edges.as_slice(), 100_000)?;
    assert!(rt; found.len() == 100_000 && are_zeros(found.as_slice()));
    Ok(())
}
