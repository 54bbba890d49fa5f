//! The best of a stream of records.

use std::fmt;

use crate::{asked, call, environment::look, raw, scored, Hit, Position, Refusal, Setup, Tally};

/// The best records of a stream under a query, up to 64 of them. It is opened with a length,
/// takes records singly or many at once, and is closed into a list of hits.
///
/// Records number from 0 in the order in which they are taken, refused and withdrawn ones too.
/// Hits stand by falling score, and equal scores, both zeros included, by number: after each
/// record they are what a full sort of the accepted records so far would give in its first
/// places. Closing leaves the scan as it is, so that further records can be taken.
///
/// A new score is compared with the hits from the last upward and stops at the first that it does
/// not beat. These comparisons are counted: a record adds at most the length then in force. A
/// scan may be given a smaller length while records are still to come.
///
/// ```
/// use foldrima::{Hit, Refusal, RotationKind, Scan, Setup, Taken, TurboMode};
///
/// # fn main() -> Result<(), Refusal> {
/// let (mode, dim, bits, projections) = (TurboMode::PolarOnly, 2, 1, 0);
/// let (kind, rotation) = (RotationKind::FastHadamard, &[1.0, 1.0]);
/// let (directions, matrix) = (&[-1.0, 0.0, 1.0, 0.0], &[]);
/// let setup = Setup { mode, dim, bits, projections, kind, rotation, directions, matrix };
/// let (mut rotated, query) = ([0.0; 2], [1.0, 3.0]);
/// setup.prepare_query(&query, &mut rotated, &mut [])?;
///
/// // Two records that point towards the query and away from it, and one cut short.
/// let towards = [0, 2, 0, 0, 0, 1, 0, 0, 0x80, 0x3F, 1];
/// let away = [0, 2, 0, 0, 0, 1, 0, 0, 0x80, 0x3F, 0];
/// let mut scan = Scan::open(2)?;
/// assert!(matches!(scan.take(&setup, &query, &away)?, Taken::Accepted(score) if score < 0.0));
/// let cut = Refusal { number: 13, place: 9 };
/// assert_eq!(scan.take_prepared(&setup, &rotated, &[], &away[..9])?, Taken::Refused(cut));
/// assert_eq!(scan.take_prepared(&setup, &rotated, &[], &[])?, Taken::Withdrawn);
/// scan.take_each(&setup, &rotated, &[], [towards, away, towards])?;
/// assert_eq!((scan.taken(), scan.refused(), scan.withdrawn()), (6, 1, 1));
/// // None with an empty list, then 1, then 1 that stops at an equal score, then 2.
/// assert_eq!(scan.comparisons(), 4);
///
/// let numbers: Vec<u32> = scan.hits().map(|hit| hit.number).collect();
/// assert_eq!(numbers, [3, 5]);
/// let mut hits = [Hit::default(); 2];
/// scan.close(&mut hits)?;
/// assert!(scan.hits().eq(hits));
/// # Ok(())
/// # }
/// ```
#[derive(Clone)]
pub struct Scan {
    held: raw::Scan,
}

/// What became of a record that took a number. A record that took none is a refusal of the call.
#[derive(Debug, Clone, Copy, PartialEq)]
pub enum Taken {
    /// It has this score, and stands among the hits if that is one of the best.
    Accepted(f32),
    /// It has no bytes, and is counted as withdrawn.
    Withdrawn,
    /// It was refused, and is counted so.
    Refused(Refusal),
}

impl Taken {
    /// The score, where there is one.
    pub fn score(self) -> Option<f32> {
        match self {
            Self::Accepted(score) => Some(score),
            Self::Withdrawn | Self::Refused(_) => None,
        }
    }
}

impl Scan {
    /// A scan that keeps so many hits at most: 21 for 0 and above 64.
    pub fn open(length: usize) -> Result<Self, Refusal> {
        look();
        let (mut number, mut place) = (0, 0);
        let held = unsafe { raw::foldrima_scan_open(length, &mut number, &mut place) };
        match number {
            0 => Ok(Self { held }),
            _ => Err(Refusal { number, place }),
        }
    }

    /// Takes a record under a setup and a query. A refusal of the setup or of the query is the
    /// call's, and so is 22, before both, where 4,294,967,295 records were taken: no number is
    /// taken then, and the scan is as it was. A refusal of the record takes its number.
    ///
    /// ```
    /// # use foldrima::{Refusal, RotationKind, Scan, Setup, Taken, TurboMode};
    /// # let (mode, dim, bits, projections) = (TurboMode::PolarOnly, 2, 1, 0);
    /// # let (kind, rotation) = (RotationKind::FastHadamard, &[1.0, 1.0]);
    /// # let (directions, matrix) = (&[-1.0, 0.0, 1.0, 0.0], &[]);
    /// # let setup = Setup { mode, dim, bits, projections, kind, rotation, directions, matrix };
    /// let record = [0, 2, 0, 0, 0, 1, 0, 0, 0x80, 0x3F, 1];
    /// let mut scan = Scan::open(10).unwrap();
    /// match scan.take(&setup, &[1.0, 3.0], &record) {
    ///     Ok(Taken::Accepted(score)) => assert!(score > 2.8 && score < 2.9),
    ///     Ok(Taken::Withdrawn) => println!("number {} is withdrawn", scan.taken() - 1),
    ///     Ok(Taken::Refused(why)) => println!("number {} is {why}", scan.taken() - 1),
    ///     Err(why) => println!("nothing was taken: {why}"),
    /// }
    /// let query = Refusal { number: 11, place: 1 };
    /// assert_eq!(scan.take(&setup, &[1.0, f32::NAN], &record), Err(query));
    /// assert_eq!(scan.taken(), 1);
    /// ```
    pub fn take(&mut self, setup: &Setup, query: &[f32], record: &[u8]) -> Result<Taken, Refusal> {
        let (mode, kind) = setup.codes();
        self.one(|scan, number, place, value| unsafe {
            call!(foldrima_scan_take(
                scan.tally,
                [mut scan.numbers],
                [mut scan.scores],
                mode,
                setup.dim,
                setup.bits,
                setup.projections,
                kind,
                [setup.rotation],
                [setup.directions],
                [setup.matrix],
                [query],
                [record],
                number,
                place,
                value
            ))
        })
    }

    /// Takes a record by a query that [`Setup::prepare_query`] has prepared; needs no rotation
    /// and no matrix.
    pub fn take_prepared(
        &mut self,
        setup: &Setup,
        rotated: &[f32],
        projected: &[f32],
        record: &[u8],
    ) -> Result<Taken, Refusal> {
        let (mode, kind) = setup.codes();
        self.one(|scan, number, place, value| unsafe {
            call!(foldrima_scan_take_prepared(
                scan.tally,
                [mut scan.numbers],
                [mut scan.scores],
                mode,
                setup.dim,
                setup.bits,
                setup.projections,
                kind,
                [setup.directions],
                [rotated],
                [projected],
                [record],
                number,
                place,
                value
            ))
        })
    }

    /// Takes each record of an iterator by a prepared query, until the call is refused; those
    /// before it stay taken. Setup and query are checked at each record: `take_many` checks
    /// them once, where the records stand in one slice.
    pub fn take_each(
        &mut self,
        setup: &Setup,
        rotated: &[f32],
        projected: &[f32],
        records: impl IntoIterator<Item = impl AsRef<[u8]>>,
    ) -> Result<(), Refusal> {
        for record in records {
            self.take_prepared(setup, rotated, projected, record.as_ref())?;
        }
        Ok(())
    }

    /// Takes many records by a prepared query, all of them or none. Their bytes stand one behind
    /// the other, and `ends` has the end of each. 22 where fewer numbers are left than records;
    /// then the refusals of setup and prepared query; then 5 for the first end that lies before
    /// the one in front of it or behind the bytes, with that end as the place. What became of a
    /// single record is counted and not answered.
    ///
    /// ```
    /// # use foldrima::{Refusal, RotationKind, Scan, Setup, TurboMode};
    /// # let (mode, dim, bits, projections) = (TurboMode::PolarOnly, 2, 1, 0);
    /// # let (kind, rotation) = (RotationKind::FastHadamard, &[1.0, 1.0]);
    /// # let (directions, matrix) = (&[-1.0, 0.0, 1.0, 0.0], &[]);
    /// # let setup = Setup { mode, dim, bits, projections, kind, rotation, directions, matrix };
    /// # let rotated = [1.0, 3.0];
    /// let records = [
    ///     0, 2, 0, 0, 0, 1, 0, 0, 0x80, 0x3F, 0, // index 0 points away
    ///     0, 2, 0, 0, 0, 1, 0, 0, 0x80, 0x3F, 1, // index 1 points towards the query
    /// ];
    /// let mut scan = Scan::open(10).unwrap();
    /// // A withdrawn position stands between the two.
    /// scan.take_many(&setup, &rotated, &[], &records, &[11, 11, 22]).unwrap();
    /// assert_eq!((scan.taken(), scan.withdrawn()), (3, 1));
    /// let hits: Vec<(u32, f32)> = scan.hits().map(|hit| (hit.number, hit.score)).collect();
    /// assert_eq!(hits, [(2, 1.0), (0, -1.0)]);
    /// let behind = Err(Refusal { number: 5, place: 23 });
    /// assert_eq!(scan.take_many(&setup, &rotated, &[], &records, &[11, 23]), behind);
    /// assert_eq!(scan.taken(), 3);
    /// ```
    pub fn take_many(
        &mut self,
        setup: &Setup,
        rotated: &[f32],
        projected: &[f32],
        bytes: &[u8],
        ends: &[usize],
    ) -> Result<(), Refusal> {
        let (mode, kind) = setup.codes();
        let scan = &mut self.held;
        asked(|number, place| unsafe {
            scan.tally = call!(foldrima_scan_take_many(
                scan.tally,
                [mut scan.numbers],
                [mut scan.scores],
                mode,
                setup.dim,
                setup.bits,
                setup.projections,
                kind,
                [setup.directions],
                [rotated],
                [projected],
                [bytes],
                [ends],
                number,
                place
            ))
        })
    }

    /// Gives the scan a smaller length while records are still to come; hits beyond it are gone. 25
    /// where it is 0 or above the present one, and the scan is as it was; the present length is
    /// allowed.
    ///
    /// From then on the hits, and how many records were taken, refused and withdrawn, are those of
    /// a scan that was opened with this length and was lent the same records, whenever that was,
    /// and after several those of the least. Comparisons are not: each record's are made at the
    /// length that was in force when it came, and shortening makes none.
    ///
    /// ```
    /// # use foldrima::{Refusal, RotationKind, Scan, Setup, TurboMode};
    /// # let (mode, dim, bits, projections) = (TurboMode::PolarOnly, 2, 1, 0);
    /// # let (kind, rotation) = (RotationKind::FastHadamard, &[1.0, 1.0]);
    /// # let (directions, matrix) = (&[-1.0, 0.0, 1.0, 0.0], &[]);
    /// # let setup = Setup { mode, dim, bits, projections, kind, rotation, directions, matrix };
    /// # let rotated = [1.0, 3.0];
    /// # let towards = [0, 2, 0, 0, 0, 1, 0, 0, 0x80, 0x3F, 1];
    /// # let away = [0, 2, 0, 0, 0, 1, 0, 0, 0x80, 0x3F, 0];
    /// let mut scan = Scan::open(3).unwrap();
    /// scan.take_each(&setup, &rotated, &[], [away, towards, away]).unwrap();
    /// scan.shorten(2).unwrap();
    /// assert_eq!(scan.shorten(3), Err(Refusal { number: 25, place: 0 }));
    /// scan.take_each(&setup, &rotated, &[], [towards]).unwrap();
    /// let numbers: Vec<u32> = scan.hits().map(|hit| hit.number).collect();
    /// assert_eq!((numbers, scan.length(), scan.taken()), (vec![1, 3], 2, 4));
    /// ```
    pub fn shorten(&mut self, length: usize) -> Result<(), Refusal> {
        let scan = &mut self.held;
        asked(|number, place| unsafe {
            scan.tally = raw::foldrima_scan_shorten(scan.tally, length, number, place)
        })
    }

    /// Makes a call that takes one record. The tally tells whether it took a number.
    fn one(
        &mut self,
        call: impl FnOnce(&mut raw::Scan, *mut u32, *mut usize, *mut f32) -> Tally,
    ) -> Result<Taken, Refusal> {
        let (before, scan) = (self.held.tally.taken, &mut self.held);
        let answer = scored(|number, place, value| scan.tally = call(scan, number, place, value));
        match answer {
            Ok(Position::Kept(score)) => Ok(Taken::Accepted(score)),
            Ok(Position::Withdrawn) => Ok(Taken::Withdrawn),
            Err(refusal) if self.held.tally.taken != before => Ok(Taken::Refused(refusal)),
            Err(refusal) => Err(refusal),
        }
    }

    /// Writes the hits, in their order, into a list that has [`Scan::kept`] of them: else 6.
    pub fn close(&self, out: &mut [Hit]) -> Result<(), Refusal> {
        let scan = self.held;
        asked(|number, place| unsafe { call!(foldrima_scan_close(scan, [mut out], number, place)) })
    }

    /// The hits, in their order.
    pub fn hits(&self) -> impl DoubleEndedIterator<Item = Hit> + ExactSizeIterator + '_ {
        let kept = self.held.tally.kept.min(64);
        let both = self.held.numbers[..kept].iter().zip(&self.held.scores[..kept]);
        both.map(|(&number, &score)| Hit { number, score })
    }

    /// How many hits are kept at most, as opened or as last shortened.
    pub fn length(&self) -> usize {
        self.held.tally.length
    }

    /// How many hits there are.
    pub fn kept(&self) -> usize {
        self.held.tally.kept
    }

    /// How many records took a number, which is the number of the next.
    pub fn taken(&self) -> u32 {
        self.held.tally.taken
    }

    /// How many of the records taken were refused.
    pub fn refused(&self) -> u32 {
        self.held.tally.refused
    }

    /// How many of the records taken were withdrawn.
    pub fn withdrawn(&self) -> u32 {
        self.held.tally.withdrawn
    }

    /// How many times a new score was compared with a hit's. A record adds at most
    /// [`Scan::length`] as it then is, and a refused or withdrawn one none.
    pub fn comparisons(&self) -> u64 {
        self.held.tally.comparisons
    }

    /// All counts at once.
    pub fn counts(&self) -> Tally {
        self.held.tally
    }

    /// The scan as the C functions have it, to be laid away.
    pub fn raw(&self) -> &raw::Scan {
        &self.held
    }

    /// A scan that was laid away. Of one that no records led to nothing is promised but that its
    /// calls end.
    pub fn from_raw(held: raw::Scan) -> Self {
        Self { held }
    }
}

impl fmt::Debug for Scan {
    fn fmt(&self, f: &mut fmt::Formatter) -> fmt::Result {
        let hits: Vec<Hit> = self.hits().collect();
        f.debug_struct("Scan").field("tally", &self.held.tally).field("hits", &hits).finish()
    }
}

/// Scans are equal by their counts and hits. Behind the hits a scan may hold anything.
impl PartialEq for Scan {
    fn eq(&self, other: &Self) -> bool {
        self.held.tally == other.held.tally && self.hits().eq(other.hits())
    }
}
