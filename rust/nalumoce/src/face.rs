//! Faces, sets of them, and the grid's cells.

use Face::*;

/// The six faces of a voxel, numbered 0 to 5.
#[derive(Copy, Clone, Debug, PartialEq, Eq, Hash)]
#[repr(u8)]
pub enum Face {
    /// +y
    Top,
    /// −y
    Bottom,
    /// +x
    Right,
    /// −x
    Left,
    /// +z
    Back,
    /// −z
    Forward,
}

impl Face {
    /// By number.
    pub const ALL: [Face; 6] = [Top, Bottom, Right, Left, Back, Forward];

    /// The face across the voxel.
    pub const fn opposite(self) -> Face {
        match self {
            Top => Bottom,
            Bottom => Top,
            Right => Left,
            Left => Right,
            Back => Forward,
            Forward => Back,
        }
    }
}

impl From<Face> for usize {
    fn from(face: Face) -> usize {
        face as usize
    }
}

/// Meshem's `Face::from(usize)` panics over 5; this answers an error.
impl TryFrom<usize> for Face {
    type Error = usize;

    fn try_from(number: usize) -> Result<Face, usize> {
        Face::ALL.get(number).copied().ok_or(number)
    }
}

/// A set of sides: those on which a voxel covers its neighbour.
#[derive(Copy, Clone, Debug, Default, PartialEq, Eq, Hash)]
pub struct Sides(u8);

impl Sides {
    /// No side, as air covers.
    pub const NONE: Sides = Sides(0);
    /// All six, as a full cube covers.
    pub const ALL: Sides = Sides(63);

    /// The sides for which the answer is yes; Meshem's `is_covering` fits.
    ///
    /// ```
    /// use nalumoce::{Face, Sides};
    /// let slab = Sides::from_fn(|side| side == Face::Bottom);
    /// assert!(slab.contains(Face::Bottom) && !slab.contains(Face::Top));
    /// ```
    pub fn from_fn(is_covering: impl Fn(Face) -> bool) -> Sides {
        let bit = |side: Face| (is_covering(side) as u8) << side as u8;
        Sides(Face::ALL.into_iter().map(bit).sum())
    }

    /// Whether a side is in the set.
    pub const fn contains(self, side: Face) -> bool {
        self.0 >> side as u8 & 1 == 1
    }

    pub(crate) const fn bits(self) -> u8 {
        self.0
    }
}

/// (width, height, length), that is x, y, z, as in Meshem.
pub type Dimensions = (usize, usize, usize);

/// The cell at x, y, z, as in Meshem; none outside.
///
/// ```
/// assert_eq!(nalumoce::one_d_cords_safe([1, 1, 0], (2, 2, 2)), Some(5));
/// ```
pub fn one_d_cords_safe([x, y, z]: [usize; 3], (width, height, length): Dimensions) -> Option<usize> {
    let within = x < width && y < height && z < length;
    within.then(|| y.checked_mul(length)?.checked_add(z)?.checked_mul(width)?.checked_add(x)).flatten()
}

/// x, y, z of a cell; none outside, where Meshem's function of this name answers for one layer too many.
pub fn three_d_cords_arr_safe(cell: usize, (width, height, length): Dimensions) -> Option<[usize; 3]> {
    let row = cell.checked_div(width)?;
    let at = [cell % width, row.checked_div(length)?, row % length];
    (at[1] < height).then_some(at)
}

/// The cell beyond a face, as in Meshem; none at the grid's edge, nor for a cell outside, where Meshem panics.
///
/// ```
/// use nalumoce::{get_neighbor, Face};
/// assert_eq!(get_neighbor(0, Face::Top, (2, 2, 2)), Some(4));
/// assert_eq!(get_neighbor(0, Face::Left, (2, 2, 2)), None);
/// ```
pub fn get_neighbor(cell: usize, face: Face, dims: Dimensions) -> Option<usize> {
    let [x, y, z] = three_d_cords_arr_safe(cell, dims)?;
    let beyond = match face {
        Top => [x, y + 1, z],
        Bottom => [x, y.checked_sub(1)?, z],
        Right => [x + 1, y, z],
        Left => [x.checked_sub(1)?, y, z],
        Back => [x, y, z + 1],
        Forward => [x, y, z.checked_sub(1)?],
    };
    one_d_cords_safe(beyond, dims)
}

/// What stands around a cell, by face, `None` outside: the last argument of [`MeshMD::log`](crate::MeshMD::log).
pub fn neighboring_voxels(grid: &[u8], cell: usize, dims: Dimensions) -> [Option<u8>; 6] {
    Face::ALL.map(|face| get_neighbor(cell, face, dims).and_then(|other| grid.get(other).copied()))
}

#[cfg(test)]
mod tests {
    use super::*;

    #[test]
    fn faces_and_numbers() {
        for (number, face) in Face::ALL.into_iter().enumerate() {
            assert_eq!(usize::from(face), number);
            assert_eq!(Face::try_from(number), Ok(face));
            assert_eq!(usize::from(face.opposite()), number ^ 1);
        }
        assert_eq!(Face::try_from(6), Err(6));
    }

    #[test]
    fn neighbours_are_mutual() {
        let dims = (3, 4, 5);
        for cell in 0..60 {
            assert_eq!(one_d_cords_safe(three_d_cords_arr_safe(cell, dims).unwrap(), dims), Some(cell));
            for face in Face::ALL {
                if let Some(other) = get_neighbor(cell, face, dims) {
                    assert_eq!(get_neighbor(other, face.opposite(), dims), Some(cell));
                }
            }
        }
        assert_eq!(three_d_cords_arr_safe(60, dims), None);
        assert_eq!(three_d_cords_arr_safe(0, (0, 1, 1)), None);
        assert_eq!(three_d_cords_arr_safe(0, (1, 1, 0)), None);
        assert_eq!(one_d_cords_safe([0, usize::MAX - 1, 0], (2, usize::MAX, 2)), None);
    }
}
