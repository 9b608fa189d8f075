//! A picture with its size, and the file that other programs take it from.
use crate::{slices, Refusal};

/// The header of a file that [`Picture::to_pam`] writes has at most this many bytes: 63, and the digits of width and height, at
/// most ten each.
pub const PAM_HEADER_MOST: usize = 63 + 2 * 10;

/// A picture with its size.
///
/// It is kept in a PAM file, the format of the Netpbm programs: a header of lines of text, then the texels as they are here.
///
/// ```
/// use tulonkasa::Picture;
///
/// let picture = Picture { width: 2, height: 1, texels: vec![255, 0, 0, 255, 0, 0, 255, 128] };
/// let file = picture.to_pam()?;
/// assert_eq!(file[..65], *b"P7\nWIDTH 2\nHEIGHT 1\nDEPTH 4\nMAXVAL 255\nTUPLTYPE RGB_ALPHA\nENDHDR\n");
/// assert_eq!(file[65..], [255, 0, 0, 255, 0, 0, 255, 128]);
/// assert_eq!(Picture::from_pam(&file)?, picture);
/// # Ok::<(), tulonkasa::Refusal>(())
/// ```
#[derive(Clone, Debug, PartialEq, Eq, Hash)]
pub struct Picture {
    /// Texels across.
    pub width: u32,
    /// Texels down.
    pub height: u32,
    /// Four bytes a texel: red, green, blue, alpha, row by row from the top.
    pub texels: Vec<u8>,
}

impl Picture {
    /// The picture as a file. Texel bytes that are more than width and height call for are left out.
    ///
    /// ```
    /// use tulonkasa::{Picture, Refusal, SIDE_MOST};
    ///
    /// let picture = |width, height| Picture { width, height, texels: vec![0; 8] };
    /// assert_eq!(picture(2, 1).to_pam()?.len(), 73);
    /// assert_eq!(picture(1, 1).to_pam()?.len(), 69);
    /// assert_eq!(picture(3, 1).to_pam(), Err(Refusal::Picture)); // too few texels
    /// assert_eq!(picture(0, 1).to_pam(), Err(Refusal::ZeroSide));
    /// assert_eq!(picture(1, SIDE_MOST + 1).to_pam(), Err(Refusal::Tile));
    /// # Ok::<(), Refusal>(())
    /// ```
    ///
    /// # Errors
    ///
    /// [`Refusal::Tile`], [`Refusal::ZeroSide`] or [`Refusal::Picture`].
    pub fn to_pam(&self) -> Result<Vec<u8>, Refusal> {
        let mut file = vec![0; PAM_HEADER_MOST + self.texels.len()];
        let bytes = slices::write_pam(self.width, self.height, &self.texels, &mut file)?;
        file.truncate(bytes as usize);
        Ok(file)
    }

    /// The picture of a file, which any program may have written: its header may have its lines in another order, comments, and
    /// more white space. What follows the texels is not read.
    ///
    /// ```
    /// use tulonkasa::{Picture, Refusal};
    ///
    /// let file = b"P7\n# one texel\nTUPLTYPE RGB_ALPHA\nDEPTH 4\nMAXVAL 255\nHEIGHT  1\nWIDTH  1\nENDHDR\nRGBA, and more";
    /// let picture = Picture { width: 1, height: 1, texels: b"RGBA".to_vec() };
    /// assert_eq!(Picture::from_pam(file), Ok(picture));
    ///
    /// let gray = b"P7\nWIDTH 1\nHEIGHT 1\nDEPTH 1\nMAXVAL 255\nTUPLTYPE GRAYSCALE\nENDHDR\nG";
    /// assert_eq!(Picture::from_pam(gray), Err(Refusal::Tuples));
    /// assert_eq!(Picture::from_pam(b"P6\n1 1\n255\nRGB"), Err(Refusal::Header));
    /// ```
    ///
    /// # Errors
    ///
    /// [`Refusal::Header`], [`Refusal::Tuples`], [`Refusal::Tile`] or [`Refusal::Texels`].
    pub fn from_pam(file: &[u8]) -> Result<Self, Refusal> {
        // Whatever size the header states, the texels are no more than the file.
        let mut texels = vec![0; file.len()];
        let (width, height) = slices::read_pam(file, &mut texels)?;
        texels.truncate(4 * width as usize * height as usize);
        Ok(Self { width, height, texels })
    }
}
