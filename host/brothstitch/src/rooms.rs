//! How much room a build is lent. What a ring calls for is known only to the library, so a build starts
//! with what common rings need; when it is refused as too small (8), all of it is doubled.

/// The numbers of each kind of room.
#[derive(Clone, Copy, Debug, PartialEq, Eq)]
pub struct Room {
    pub stripes: usize,
    pub list: usize,
    pub bytes: usize,
    pub work: usize,
}

const MOST_STRIPES: usize = 65_536;

/// A list never gets more than these numbers (64 MiB). Only a ring of a few units, very far from (0, 0),
/// calls for so many, or for over 65,536 stripes, which no room cures.
const MOST_LIST: usize = 1 << 24;

impl Room {
    /// What the first attempt is lent. What is not asked for gets none.
    pub fn first(rings: usize, points: usize, stripes: bool, tree: bool) -> Room {
        let common = Room {
            stripes: 2 * (32 * rings + points),
            list: 16 * points + 64 * rings,
            bytes: 4 * points + 16 * rings,
            work: 8 * points + 16,
        };
        common.only(stripes, tree)
    }

    /// Where growing ends. A splitting node has over 12 segments, and there are 64 depths, so a tree of n
    /// segments has fewer than 1 + 20n nodes; a node takes six work numbers, and at most 15 bytes beside two for
    /// each of its segments.
    pub fn most(rings: usize, points: usize, stripes: bool, tree: bool) -> Room {
        let greatest = Room {
            stripes: 2 * MOST_STRIPES * rings,
            list: MOST_LIST.min(MOST_STRIPES.saturating_mul(points)),
            bytes: 320 * points + 16 * rings,
            work: 128 * points + 16,
        };
        greatest.only(stripes, tree)
    }

    fn only(self, stripes: bool, tree: bool) -> Room {
        let kept = |n, keep| if keep { n } else { 0 };
        Room {
            stripes: kept(self.stripes, stripes),
            list: kept(self.list, stripes),
            bytes: kept(self.bytes, tree),
            work: kept(self.work, tree),
        }
    }

    /// Twice the room, up to the most; none where it is the most already.
    pub fn grown(self, most: Room) -> Option<Room> {
        let twice = |n: usize, most: usize| n.saturating_mul(2).min(most.max(n));
        let next = Room {
            stripes: twice(self.stripes, most.stripes),
            list: twice(self.list, most.list),
            bytes: twice(self.bytes, most.bytes),
            work: twice(self.work, most.work),
        };
        (next != self).then_some(next)
    }
}

#[cfg(test)]
mod tests {
    use super::Room;

    #[test]
    fn growing_ends() {
        for (stripes, tree) in [(false, false), (true, false), (false, true), (true, true)] {
            let most = Room::most(3, 200, stripes, tree);
            let mut room = Room::first(3, 200, stripes, tree);
            let mut turns = 0;
            while let Some(next) = room.grown(most) {
                room = next;
                turns += 1;
            }
            assert_eq!(room, most);
            assert!(turns < 40);
        }
    }
}
