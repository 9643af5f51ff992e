//! The image with its map, and the log that takes a step's writes back.

/// The bytes of a whole image.
pub const IMAGE: usize = 65_536;
/// The pages of a map.
pub const PAGES: usize = 256;

/// A map's byte for a page that is fitted and can be written.
pub const WRITABLE: u8 = 1;
/// A map's byte for a page that is fitted and can only be read (wish 5).
pub const READ_ONLY: u8 = 2;

/// An access found nothing fitted, or nothing to write to: its address, bit 0 as formed.
#[derive(Clone, Copy, PartialEq, Eq, Debug)]
pub struct Blank(pub u16);

/// More than any step writes: XCT of SVCB writes 11 words.
const ROOM: usize = 16;

/// The lent memory, worked on in place.
pub struct Board<'a> {
    image: &'a mut [u8; IMAGE],
    map: &'a [u8; PAGES],
    log: [(u16, u16); ROOM],
    noted: usize,
}

impl<'a> Board<'a> {
    pub fn new(image: &'a mut [u8; IMAGE], map: &'a [u8; PAGES]) -> Board<'a> {
        Board {
            image,
            map,
            log: [(0, 0); ROOM],
            noted: 0,
        }
    }

    #[inline]
    fn fitted(&self, address: u16) -> Result<(), Blank> {
        if self.map[usize::from(address >> 8)] == 0 {
            Err(Blank(address))
        } else {
            Ok(())
        }
    }

    #[inline]
    fn writable(&self, address: u16) -> Result<(), Blank> {
        if self.map[usize::from(address >> 8)] == WRITABLE {
            Ok(())
        } else {
            Err(Blank(address))
        }
    }

    #[inline]
    fn word(&self, address: u16) -> u16 {
        let low = usize::from(address & 0xFFFE);
        u16::from_le_bytes([self.image[low], self.image[low | 1]])
    }

    #[inline]
    fn set_word(&mut self, address: u16, value: u16) {
        let low = usize::from(address & 0xFFFE);
        let bytes = value.to_le_bytes();
        self.image[low] = bytes[0];
        self.image[low | 1] = bytes[1];
    }

    /// Notes the word at the address as it is now.
    #[inline]
    fn note(&mut self, address: u16) {
        self.log[self.noted % ROOM] = (address, self.word(address));
        self.noted += 1;
    }

    /// The word at the address with bit 0 dropped.
    #[inline]
    pub fn read_word(&self, address: u16) -> Result<u16, Blank> {
        self.fitted(address)?;
        Ok(self.word(address))
    }

    #[inline]
    pub fn read_byte(&self, address: u16) -> Result<u8, Blank> {
        self.fitted(address)?;
        Ok(self.image[usize::from(address)])
    }

    #[inline]
    pub fn write_word(&mut self, address: u16, value: u16) -> Result<(), Blank> {
        self.writable(address)?;
        self.note(address);
        self.set_word(address, value);
        Ok(())
    }

    #[inline]
    pub fn write_byte(&mut self, address: u16, value: u8) -> Result<(), Blank> {
        self.writable(address)?;
        self.note(address);
        self.image[usize::from(address)] = value;
        Ok(())
    }

    /// From here on the writes are a new step's.
    #[inline]
    pub fn begin(&mut self) {
        self.noted = 0;
    }

    /// Takes all writes since `begin` back, newest first.
    pub fn undo(&mut self) {
        while self.noted > 0 {
            self.noted -= 1;
            let (address, value) = self.log[self.noted % ROOM];
            self.set_word(address, value);
        }
    }
}
