//! The log of an update.

use crate::{get_neighbor, Dimensions, Face};
use std::collections::HashMap;

/// All the ways a voxel can be changed.
#[derive(Clone, Copy, Debug, PartialEq, Eq)]
pub enum VoxelChange {
    /// The voxel is gone: its quads go, and its neighbours show what it covered.
    Broken,
    /// The voxel is put: it shows what nothing covers, and hides its neighbours' faces.
    Added,
    /// The voxel takes the place of another, as gravel takes that of clay. It is `Broken` of the former voxel and then `Added` of the new one, with
    /// the same neighbours, in one entry, which is done completely or not at all.
    Replaced {
        /// The voxel that was there.
        former: u8,
    },
    /// The voxel's sides with a neighbour given are hidden. Only whether one is given counts, and not of what type it is.
    /// [`MeshMD::log_sides`](crate::MeshMD::log_sides) says this and `AddFaces` in one entry, which is done completely or not at all.
    CullFaces,
    /// The voxel's sides with a neighbour given are drawn, if it is a cube. Only whether one is given counts, and not of what type it is.
    /// [`MeshMD::log_sides`](crate::MeshMD::log_sides) says this and `CullFaces` in one entry, which is done completely or not at all.
    AddFaces,
}

/// What [`MeshMD::log_sides`](crate::MeshMD::log_sides) does to a side.
#[derive(Clone, Copy, Debug, Default, PartialEq, Eq, Hash)]
#[repr(u8)]
pub enum Side {
    /// It stays as it is.
    #[default]
    Keep,
    /// Its quad goes, if it has one.
    Hide,
    /// It gets a quad, if it has none.
    Draw,
}

/// Changes in the order in which they happened, kept as the sixteen bytes an entry that the library reads.
#[derive(Clone, Debug, Default, PartialEq, Eq)]
pub struct Log {
    bytes: Vec<u8>,
}

/// The library's changes.
const BROKEN: u8 = 0;
const ADDED: u8 = 1;
const SIDES: u8 = 2;
const REPLACED: u8 = 3;

/// A neighbour outside, or the former voxel of a change that has none; no type has this code.
const NONE: u8 = 255;

impl Log {
    /// The bytes of an entry: the cell, four; the change; the voxel; six by face; the former voxel; three zeros.
    pub const ENTRY: usize = 16;

    /// A log without entries.
    pub const fn new() -> Log {
        Log { bytes: vec![] }
    }

    /// A log of stored bytes, as [`Log::as_bytes`] gives them; `None` if the last entry is cut short. What an entry says is not tested here: an update
    /// tests it. Bytes of a former level have to be converted first.
    pub fn from_bytes(bytes: &[u8]) -> Option<Log> {
        (bytes.len() % Log::ENTRY == 0).then(|| Log { bytes: bytes.to_vec() })
    }

    /// Appends a change: the cell, the voxel that was broken or put there, and what stands around it by face, `None` outside.
    /// Nothing is tested here; an update refuses a log with an entry that names no cell or no type.
    ///
    /// Of `CullFaces` and `AddFaces` the entry keeps which neighbours are given, and not their types: it is the one of [`Log::push_sides`]
    /// that hides these sides, or draws them. A neighbour that is no type is as good as any other there.
    pub fn push(&mut self, change: VoxelChange, cell: usize, voxel: u8, neighboring_voxels: [Option<u8>; 6]) {
        let sides = |way: Side| neighboring_voxels.map(|beside| beside.map_or(Side::Keep, |_| way));
        let around = neighboring_voxels.map(|beside| beside.unwrap_or(NONE));
        // 255 is no type, yet as a neighbour's byte it would mean outside: the entry says 255 where it is refused
        let voxel_byte = if neighboring_voxels.contains(&Some(NONE)) { NONE } else { voxel };
        match change {
            VoxelChange::Broken => self.push_bytes(cell, BROKEN, voxel_byte, around, voxel_byte),
            VoxelChange::Added => self.push_bytes(cell, ADDED, voxel_byte, around, NONE),
            VoxelChange::Replaced { former } => self.push_bytes(cell, REPLACED, voxel_byte, around, former),
            VoxelChange::CullFaces => self.push_sides(cell, voxel, sides(Side::Hide)),
            VoxelChange::AddFaces => self.push_sides(cell, voxel, sides(Side::Draw)),
        }
    }

    /// Appends what becomes of a cell's own sides, by face: first the quads of those to hide go, then those to draw get one from the voxel, if
    /// it is a cube. Nothing is tested here; an update refuses a log with an entry that names no cell or no type. The library refuses a byte
    /// over 2 for a side too. No [`Side`] has one, so that this can't be met through this crate.
    pub fn push_sides(&mut self, cell: usize, voxel: u8, sides: [Side; 6]) {
        self.push_bytes(cell, SIDES, voxel, sides.map(|side| side as u8), NONE);
    }

    fn push_bytes(&mut self, cell: usize, change: u8, voxel: u8, given: [u8; 6], former: u8) {
        self.bytes.extend(u32::try_from(cell).unwrap_or(u32::MAX).to_le_bytes());
        self.bytes.extend([change, voxel]);
        self.bytes.extend(given);
        self.bytes.extend([former, 0, 0, 0]);
    }

    /// Appends another log's entries, in their order.
    pub fn push_all(&mut self, other: &Log) {
        self.bytes.extend_from_slice(&other.bytes);
    }

    /// How many entries there are.
    pub fn len(&self) -> usize {
        self.bytes.len() / Log::ENTRY
    }

    /// Whether there are none.
    pub fn is_empty(&self) -> bool {
        self.bytes.is_empty()
    }

    /// Drops all entries.
    pub fn clear(&mut self) {
        self.bytes.clear();
    }

    /// Drops the first entries, or all if there are not so many: those that were done before
    /// [`NoRoom`](crate::lent::UpdateError::NoRoom), so that the rest can be given again.
    pub fn drop_first(&mut self, entries: usize) {
        let bytes = entries.min(self.len()) * Log::ENTRY;
        self.bytes.drain(..bytes);
    }

    /// The entries as the library reads them.
    pub fn as_bytes(&self) -> &[u8] {
        &self.bytes
    }

    /// An entry of this log and one of the other's whose cells are the same, or neighbours across a face. It is the first of this log that
    /// touches any, and the first of the other's that it touches. `None`: the two may be merged in any order.
    ///
    /// That is proved of the library. Take a mesh that passes [`check_mesh`](crate::check_mesh) with no outer layer, and two logs, both begun on the
    /// grid as it stands, each of the kind after which the mesh is proved to pass again; [`mend_mesh`](crate::mend_mesh) says which, for either
    /// update. If they touch nowhere, each merge that keeps the order within either log, in one call or in several, leaves the same faces with
    /// the same vertices, and passes for the same grid, unless it is refused. The quads' places and `moved` may differ.
    ///
    /// ```
    /// # use nalumoce::*;
    /// # let rock = 1;
    /// # let (mut ours, mut theirs) = (Log::new(), Log::new());
    /// let (dims, grid) = ((4, 1, 1), [rock; 4]);
    /// ours.push(VoxelChange::Broken, 0, rock, neighboring_voxels(&grid, 0, dims));
    /// theirs.push(VoxelChange::Broken, 2, rock, neighboring_voxels(&grid, 2, dims));
    /// assert_eq!(ours.touching(&theirs, dims), None);
    /// theirs.push(VoxelChange::Broken, 1, rock, neighboring_voxels(&grid, 1, dims));
    /// assert_eq!(ours.touching(&theirs, dims), Some((0, 1))); // cells 0 and 1
    /// ```
    ///
    /// Only the cells are read. Whether the logs are true of the grid is not tested. An entry of sides counts by its cell as any other, but the law
    /// is silent on logs with one. A cell outside the grid has no neighbours, and touches only itself; an update refuses it.
    ///
    /// It takes time in proportion to the entries of both.
    pub fn touching(&self, other: &Log, dims: Dimensions) -> Option<(usize, usize)> {
        let (ours, theirs) = (self.first_entries(), other.first_entries());
        let touched = |cell: usize| {
            let beside = Face::ALL.into_iter().filter_map(|face| get_neighbor(cell, face, dims));
            beside.chain([cell]).filter_map(|near| theirs.get(&near).copied()).min()
        };
        ours.into_iter().filter_map(|(cell, entry)| Some((entry, touched(cell)?))).min()
    }

    /// The first entry of each cell that has one.
    fn first_entries(&self) -> HashMap<usize, usize> {
        let mut first = HashMap::new();
        for (number, entry) in self.bytes.chunks_exact(Log::ENTRY).enumerate() {
            let cell = u32::from_le_bytes([entry[0], entry[1], entry[2], entry[3]]) as usize;
            first.entry(cell).or_insert(number);
        }
        first
    }
}

#[cfg(test)]
mod tests {
    use super::*;

    fn bytes_of(push: impl Fn(&mut Log)) -> Vec<u8> {
        let mut log = Log::new();
        push(&mut log);
        log.as_bytes().to_vec()
    }

    #[test]
    fn an_entry_is_sixteen_bytes() {
        let mut log = Log::new();
        log.push(VoxelChange::Broken, 0x0102_0304, 9, [None, Some(1), None, None, Some(0), Some(7)]);
        assert_eq!(log.as_bytes(), [4, 3, 2, 1, 0, 9, 255, 1, 255, 255, 0, 7, 9, 0, 0, 0]);
        assert_eq!(log.as_bytes().len(), Log::ENTRY);
        log.push_sides(5, 6, [Side::Keep; 6]);
        assert_eq!(log.len(), 2);
        log.clear();
        assert!(log.is_empty());
    }

    #[test]
    fn the_bytes_of_each_change() {
        use Side::*;
        let beside = [None, Some(1), None, Some(254), Some(0), None];
        let pushed = |change| bytes_of(|log| log.push(change, 0x0102, 3, beside));
        assert_eq!(pushed(VoxelChange::Broken), [2, 1, 0, 0, 0, 3, 255, 1, 255, 254, 0, 255, 3, 0, 0, 0]);
        assert_eq!(pushed(VoxelChange::Added), [2, 1, 0, 0, 1, 3, 255, 1, 255, 254, 0, 255, 255, 0, 0, 0]);
        assert_eq!(pushed(VoxelChange::Replaced { former: 6 }), [2, 1, 0, 0, 3, 3, 255, 1, 255, 254, 0, 255, 6, 0, 0, 0]);
        assert_eq!(pushed(VoxelChange::CullFaces), [2, 1, 0, 0, 2, 3, 0, 1, 0, 1, 1, 0, 255, 0, 0, 0]);
        assert_eq!(pushed(VoxelChange::AddFaces), [2, 1, 0, 0, 2, 3, 0, 2, 0, 2, 2, 0, 255, 0, 0, 0]);
        let sides = bytes_of(|log| log.push_sides(0x0908_0706, 5, [Draw, Hide, Keep, Keep, Hide, Draw]));
        assert_eq!(sides, [6, 7, 8, 9, 2, 5, 2, 1, 0, 0, 1, 2, 255, 0, 0, 0]);
    }

    /// The voxel, the neighbour's byte and the former voxel, where the neighbour's code can be a type's, where it can't, and where none is given.
    #[test]
    fn a_neighbour_of_code_255_is_no_type_where_types_count() {
        for (change, due) in [
            (VoxelChange::Broken, [[3, 254, 3], [255, 255, 255], [3, 255, 3]]),
            (VoxelChange::Added, [[3, 254, 255], [255, 255, 255], [3, 255, 255]]),
            (VoxelChange::Replaced { former: 4 }, [[3, 254, 4], [255, 255, 4], [3, 255, 4]]),
            (VoxelChange::CullFaces, [[3, 1, 255], [3, 1, 255], [3, 0, 255]]),
            (VoxelChange::AddFaces, [[3, 2, 255], [3, 2, 255], [3, 0, 255]]),
        ] {
            let told = [Some(254), Some(255), None].map(|beside| {
                let bytes = bytes_of(|log| log.push(change, 0, 3, [None, None, beside, None, None, None]));
                [bytes[5], bytes[8], bytes[12]]
            });
            assert_eq!(told, due);
        }
    }

    #[test]
    fn a_log_is_read_back_whole_or_not_at_all() {
        let bytes = [log_at(&[7]).as_bytes(), log_at(&[5, 6]).as_bytes()].concat();
        for length in 0..=48 {
            let read = Log::from_bytes(&bytes[..length]);
            assert_eq!(read.is_some(), [0, 16, 32, 48].contains(&length), "{length} bytes");
            assert!(read.is_none_or(|log| log.as_bytes() == &bytes[..length]));
        }
    }

    /// A log that digs at these cells.
    fn log_at(cells: &[usize]) -> Log {
        let mut log = Log::new();
        cells.iter().for_each(|&cell| log.push(VoxelChange::Broken, cell, 1, [None; 6]));
        log
    }

    #[test]
    fn all_of_a_log_is_pushed() {
        let (mut log, other) = (log_at(&[7]), log_at(&[5, 6]));
        log.push_all(&other);
        assert_eq!(log, log_at(&[7, 5, 6]));
        log.push_all(&Log::new());
        assert_eq!(log.len(), 3);
        let mut empty = Log::new();
        empty.push_all(&other);
        assert_eq!(empty, other);
    }

    #[test]
    fn the_first_entries_are_dropped() {
        for (entries, left) in [(0, &[7, 5, 6][..]), (1, &[5, 6]), (2, &[6]), (3, &[]), (4, &[]), (usize::MAX, &[])] {
            let mut log = log_at(&[7, 5, 6]);
            log.drop_first(entries);
            assert_eq!(log, log_at(left));
        }
    }

    /// x, y, z: a cell's number is y · 20 + z · 4 + x.
    const DIMS: Dimensions = (4, 3, 5);

    fn touching(ours: &[usize], theirs: &[usize]) -> Option<(usize, usize)> {
        log_at(ours).touching(&log_at(theirs), DIMS)
    }

    /// No other cell: no diagonal one, and none that has the next number past the end of a row or a layer.
    #[test]
    fn a_cell_touches_itself_and_its_neighbours() {
        let near: [(usize, &[usize]); 7] = [
            (29, &[9, 25, 28, 29, 30, 33, 49]), // by face 49, 9, 30, 28, 33, 25
            (0, &[0, 1, 4, 20]),
            (59, &[39, 55, 58, 59]),
            (3, &[2, 3, 7, 23]),        // the end of a row
            (4, &[0, 4, 5, 8, 24]),     // the start of the next
            (19, &[15, 18, 19, 39]),    // the end of a layer
            (20, &[0, 20, 21, 24, 40]), // the start of the next
        ];
        for (cell, near) in near {
            for other in 0..60 {
                let due = near.contains(&other).then_some((0, 0));
                assert_eq!((touching(&[cell], &[other]), touching(&[other], &[cell])), (due, due), "{cell} and {other}");
            }
        }
    }

    #[test]
    fn the_first_entry_that_touches_and_the_first_that_it_touches() {
        assert_eq!(touching(&[59, 58, 29, 28], &[0, 49, 29, 9]), Some((2, 1)));
        assert_eq!(touching(&[0, 49, 29, 9], &[59, 58, 29, 28]), Some((1, 2)));
        assert_eq!(touching(&[3, 29, 29], &[0, 12, 29, 29]), Some((1, 2)));
        assert_eq!(touching(&[29], &[30, 29]), Some((0, 0)));
        assert_eq!(touching(&[29], &[29, 30]), Some((0, 0)));
        assert_eq!(touching(&[0, 59], &[19, 29, 49]), None);
    }

    #[test]
    fn a_log_without_entries_touches_nothing() {
        assert_eq!((touching(&[], &[]), touching(&[], &[29]), touching(&[29], &[])), (None, None, None));
    }

    #[test]
    fn every_change_counts_by_its_cell() {
        let mut log = Log::new();
        log.push(VoxelChange::Added, 0, 1, [None; 6]);
        log.push(VoxelChange::Replaced { former: 2 }, 3, 1, [None; 6]);
        log.push_sides(59, 1, [Side::Keep; 6]);
        for (entry, beside) in [20, 2, 55].into_iter().enumerate() {
            assert_eq!(log.touching(&log_at(&[29, beside]), DIMS), Some((entry, 1)));
            assert_eq!(log_at(&[29, beside]).touching(&log, DIMS), Some((1, entry)));
        }
    }

    /// 60 would be above 40, behind 56 and to the right of 59. The others differ in one byte each.
    #[test]
    fn a_cell_outside_touches_only_itself() {
        for (cell, others) in [(60, [40, 56, 59, 61]), (0x0102_0304, [0x0202_0304, 0x0103_0304, 0x0102_0404, 0x0102_0305])] {
            assert_eq!(touching(&[cell], &[cell]), Some((0, 0)));
            assert_eq!((touching(&[cell], &others), touching(&others, &[cell])), (None, None));
        }
        assert_eq!(log_at(&[0]).touching(&log_at(&[1]), (0, 0, 0)), None);
    }

    #[test]
    fn a_cell_that_is_too_large_is_the_largest_that_can_be_said() {
        for cell in [usize::MAX, 1 << 32, u32::MAX as usize] {
            assert_eq!(bytes_of(|log| log.push_sides(cell, 3, [Side::Keep; 6]))[..4], [255; 4]);
        }
        assert_eq!(bytes_of(|log| log.push_sides(0xFFFF_FFFE, 3, [Side::Keep; 6]))[..4], [254, 255, 255, 255]);
    }
}
