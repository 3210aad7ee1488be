//! Row hashing, and the column view beneath it.

use super::*;

/// The digests of the rows of a table that is stored column by column; each entry is one word.
pub fn hash_rows_of_columns(columns: &[&[u64]]) -> Vec<Five> {
    let columns = columns
        .iter()
        .map(|column| as_elements(column))
        .collect_vec();
    digests(Tip5::hash_rows_of_columns(&columns))
}

/// The same where each entry is three words, an extension element.
pub fn hash_rows_of_wide_columns(columns: &[&[u64]]) -> Vec<Five> {
    let columns = columns
        .iter()
        .map(|column| extension_elements(column))
        .collect_vec();
    let columns = columns.iter().map(Vec::as_slice).collect_vec();
    digests(Tip5::hash_rows_of_columns(&columns))
}

/// The words in threes, as extension elements.
fn extension_elements(words: &[u64]) -> Vec<XFieldElement> {
    let (threes, rest) = words.as_chunks();
    assert!(rest.is_empty(), "extension elements are whole threes");
    let element = |&three| XFieldElement::new(elements(three));
    threes.iter().map(element).collect()
}

fn digests(digests: Vec<Digest>) -> Vec<Five> {
    digests
        .into_iter()
        .map(|digest| words(digest.values()))
        .collect()
}

/// A column view's number of rows.
pub fn column_num_rows(elements: &[u64], stride: usize, offset: usize) -> usize {
    column(elements, stride, offset).num_rows()
}

/// A column view's entry at a row.
pub fn column_get(elements: &[u64], stride: usize, offset: usize, row: usize) -> u64 {
    column(elements, stride, offset).get(row).raw_u64()
}

fn column(elements: &[u64], stride: usize, offset: usize) -> Column<'_> {
    Column {
        elements: as_elements(elements),
        stride,
        offset,
    }
}
