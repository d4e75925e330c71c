//! Bytes that lie alike in every run, whatever the allocator does: loads and stores that are a page
//! apart hinder one another, which moves times by a tenth.

const PAGE: usize = 4096;

pub struct Aligned {
    room: Vec<u8>,
    from: usize,
    length: usize,
}

impl Aligned {
    /// These bytes, so many behind the start of a page.
    pub fn new(bytes: &[u8], behind: usize) -> Aligned {
        let mut room = vec![0; bytes.len() + 2 * PAGE];
        let (from, length) = (room.as_ptr().align_offset(PAGE) + behind % PAGE, bytes.len());
        room[from..][..length].copy_from_slice(bytes);
        Aligned { room, from, length }
    }

    pub fn bytes(&self) -> &[u8] {
        &self.room[self.from..][..self.length]
    }

    pub fn bytes_mut(&mut self) -> &mut [u8] {
        &mut self.room[self.from..][..self.length]
    }
}

#[cfg(test)]
mod tests {
    use super::*;

    #[test]
    fn bytes_in_a_page() {
        for behind in [0, 64, PAGE - 1, PAGE + 1] {
            let aligned = Aligned::new(&[1, 2, 3], behind);
            assert_eq!(aligned.bytes(), [1, 2, 3]);
            assert_eq!(aligned.bytes().as_ptr() as usize % PAGE, behind % PAGE);
        }
    }
}
