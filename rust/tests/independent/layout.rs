//! Where the words of records stand in a list: in columns, one for each word of a record. The sizes of records are six words
//! for a circuit's and five for a program's.

/// How long each column of a list is: as many records as the list can hold, above 16,384 too.
pub fn height(length: usize, size: usize) -> usize {
    length / size
}

/// Where word j of record i stands, both from 0.
pub fn place(height: usize, i: usize, j: usize) -> usize {
    height * j + i
}

/// The first `count` records of a list in columns, one behind the other.
pub fn gather(list: &[u64], count: usize, size: usize) -> Vec<u64> {
    let (mut rows, height) = (vec![0; size * count], height(list.len(), size));
    for (i, row) in rows.chunks_exact_mut(size).enumerate() {
        row.iter_mut().enumerate().for_each(|(j, word)| *word = list[place(height, i, j)]);
    }
    rows
}

/// Puts records, given one behind the other, into the columns of a list.
pub fn put(rows: &[u64], list: &mut [u64], size: usize) {
    let height = height(list.len(), size);
    for (i, row) in rows.chunks_exact(size).enumerate() {
        row.iter().enumerate().for_each(|(j, &word)| list[place(height, i, j)] = word);
    }
}

/// A list of so many words in columns: some records, given one behind the other, and zeros.
pub fn spread(rows: &[u64], length: usize, size: usize) -> Vec<u64> {
    let mut list = vec![0; length];
    put(rows, &mut list, size);
    list
}
