//! What a stream of calls loads and puts, as the program `verdict` reads it.

use super::list::{next_call, Call};

/// The pairs of a model and a question that a stream puts, each the one
/// followed by the other; so many at most, spread over all that there are.
pub fn pairs(stream: &[u8], most: usize) -> Vec<Vec<u8>> {
    let mut rest = stream;
    let mut model = Vec::new();
    let mut found = Vec::new();
    while let Some(call) = next_call(&mut rest) {
        match call {
            Call::Load(bytes) => model = bytes,
            Call::Put(question) => found.push([model.as_slice(), &question].concat()),
            _ => {}
        }
    }
    let taken = most.min(found.len());
    let places = (0..taken).map(|number| number * found.len() / taken);
    places
        .filter_map(|place| found.get(place).cloned())
        .collect()
}

#[cfg(test)]
mod tests {
    use super::*;

    #[test]
    fn pairs_of_a_stream() {
        let calls = [
            Call::Put(vec![1]),
            Call::Load(vec![2, 3]),
            Call::Put(vec![4]),
            Call::Judge,
            Call::Put(vec![5]),
            Call::Load(vec![6]),
            Call::Put(vec![7]),
        ];
        let stream: Vec<u8> = calls.iter().flat_map(Call::record).collect();
        let all = [vec![1], vec![2, 3, 4], vec![2, 3, 5], vec![6, 7]];
        assert_eq!(pairs(&stream, 9), all);
        assert_eq!(pairs(&stream, 2), [vec![1], vec![2, 3, 5]]);
        assert!(pairs(&stream, 0).is_empty());
        assert!(pairs(&[], 3).is_empty());
    }
}
