//! Rows of a frame, of which the first words are a canvas's, and pictures of them.

/// The first words of a row, so many as the canvas is wide.
pub(crate) fn row(px: &[u32], pitch: usize, width: usize, y: usize) -> &[u32] {
    let row = px.chunks_exact(pitch).nth(y);
    &row.unwrap_or_else(|| panic!("there is no row {y}"))[..width]
}

/// The first words of each row, so many as the canvas is wide.
pub(crate) fn rows(px: &[u32], pitch: usize, width: usize) -> impl ExactSizeIterator<Item = &[u32]> {
    px.chunks_exact(pitch).map(move |row| &row[..width])
}

/// The words of a row past the canvas's width.
pub(crate) fn margin(px: &mut [u32], pitch: usize, width: usize, y: usize) -> &mut [u32] {
    let row = px.chunks_exact_mut(pitch).nth(y);
    &mut row.unwrap_or_else(|| panic!("there is no row {y}"))[width..]
}

/// Rows of so many pixels as a PPM file.
pub(crate) fn picture<'a>(width: usize, rows: impl ExactSizeIterator<Item = &'a [u32]>) -> Vec<u8> {
    let mut file = format!("P6\n{width} {}\n255\n", rows.len()).into_bytes();
    file.extend(rows.flatten().flat_map(|p| [(p >> 16) as u8, (p >> 8) as u8, *p as u8]));
    file
}

/// Pixels, rows of so many, as a PPM file. A last row that is not whole is left out. Of a frame it shows all, where its rows are `width` words.
pub fn to_ppm(width: usize, px: &[u32]) -> Vec<u8> {
    picture(width, px.chunks_exact(width.max(1)))
}
