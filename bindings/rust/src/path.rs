use core::fmt::{self, Debug, Display, Formatter};

use crate::{
    bytes::{array, records, u16_at, u32_at, u64_at},
    layout::*,
    write, IsdAsn,
};

/// A path as [`assemble`](crate::assemble) or [`read`](crate::read) laid it out.
#[derive(Clone, Copy, PartialEq, Eq)]
pub struct Path<'a> {
    bytes: &'a [u8],
}

impl<'a> Path<'a> {
    /// The least output of [`assemble`](crate::assemble) and of [`read`](crate::read).
    pub const SIZE: usize = PATH_SIZE;

    /// The path whose record the bytes are.
    pub(crate) fn of_record(bytes: &'a [u8]) -> Self {
        Self { bytes }
    }

    /// The path whose record stands at the front of an output.
    pub(crate) fn at_front(out: &'a [u8]) -> Self {
        let [infos, hops, interfaces] = counts(out);
        let rest = INFO_SIZE * infos + HOP_SIZE * hops + INTERFACE_SIZE * interfaces;
        Self::of_record(&out[..PATH_HEAD_SIZE + rest])
    }

    /// The MTU.
    pub fn mtu(&self) -> u16 {
        u16_at(self.bytes, PATH_MTU)
    }

    /// When the first hop runs out, in the unit of the timestamps: seconds.
    pub fn expiry(&self) -> u32 {
        u32_at(self.bytes, PATH_EXPIRY)
    }

    /// The AS of the first interface.
    pub fn first_as(&self) -> IsdAsn {
        IsdAsn(u64_at(self.bytes, PATH_FIRST_AS))
    }

    /// The AS of the last interface.
    pub fn last_as(&self) -> IsdAsn {
        IsdAsn(u64_at(self.bytes, PATH_LAST_AS))
    }

    /// The infos, one to [`MAX_EDGES`].
    pub fn infos(
        &self,
    ) -> impl ExactSizeIterator<Item = InfoField> + DoubleEndedIterator + Clone + 'a {
        records(self.parts().infos, INFO_SIZE, InfoField::read)
    }

    /// The hops of all infos, in the order of travel.
    pub fn hops(
        &self,
    ) -> impl ExactSizeIterator<Item = HopField> + DoubleEndedIterator + Clone + 'a {
        records(self.parts().hops, HOP_SIZE, HopField::read)
    }

    /// Each info with its hops.
    pub fn segments(&self) -> impl Iterator<Item = Segment<'a>> + Clone + 'a {
        self.infos().scan(self.parts().hops, |rest, info| {
            let (hops, after) = rest.split_at(HOP_SIZE * usize::from(info.hops));
            *rest = after;
            Some(Segment { info, hops })
        })
    }

    /// The interfaces that the path passes, in the order of travel.
    pub fn interfaces(
        &self,
    ) -> impl ExactSizeIterator<Item = PathInterface> + DoubleEndedIterator + Clone + 'a {
        let Parts { ases, ids, .. } = self.parts();
        let ases = records(ases, AS_SIZE, |a| IsdAsn(u64_at(a, 0)));
        let ids = records(ids, INTERFACE_ID_SIZE, |id| u16_at(id, 0));
        ases.zip(ids)
            .map(|(isd_asn, id)| PathInterface { isd_asn, id })
    }

    /// The path's record, without the zeros after it.
    pub fn as_bytes(&self) -> &'a [u8] {
        self.bytes
    }

    /// The path as routers take it: [`write()`] where nothing can be refused. What is left of `out` is zero.
    pub fn encode<'b>(&self, out: &'b mut [u8; WIRE_SIZE]) -> &'b [u8] {
        write(self, out).expect("a path that the library laid out")
    }

    /// The path as routers take it.
    #[cfg(feature = "alloc")]
    pub fn encode_to_vec(&self) -> alloc::vec::Vec<u8> {
        self.encode(&mut [0; WIRE_SIZE]).to_vec()
    }

    fn parts(&self) -> Parts<'a> {
        let [infos, hops, interfaces] = counts(self.bytes);
        let (infos, rest) = self.bytes[PATH_HEAD_SIZE..].split_at(INFO_SIZE * infos);
        let (hops, rest) = rest.split_at(HOP_SIZE * hops);
        let (ases, ids) = rest.split_at(AS_SIZE * interfaces);
        Parts {
            infos,
            hops,
            ases,
            ids,
        }
    }
}

/// The path's record.
impl AsRef<[u8]> for Path<'_> {
    fn as_ref(&self) -> &[u8] {
        self.bytes
    }
}

/// How many infos, hops and interfaces there are.
fn counts(path: &[u8]) -> [usize; 3] {
    [PATH_INFO_COUNT, PATH_HOP_COUNT, PATH_INTERFACE_COUNT].map(|at| usize::from(path[at]))
}

struct Parts<'a> {
    infos: &'a [u8],
    hops: &'a [u8],
    ases: &'a [u8],
    ids: &'a [u8],
}

impl Debug for Path<'_> {
    fn fmt(&self, f: &mut Formatter<'_>) -> fmt::Result {
        f.debug_struct("Path")
            .field("mtu", &self.mtu())
            .field("expiry", &self.expiry())
            .field("first_as", &self.first_as())
            .field("last_as", &self.last_as())
            .field("segments", &List(self.segments()))
            .field("interfaces", &List(self.interfaces()))
            .finish()
    }
}

struct List<I>(I);

impl<I> Debug for List<I>
where
    I: Iterator<Item: Debug> + Clone,
{
    fn fmt(&self, f: &mut Formatter<'_>) -> fmt::Result {
        f.debug_list().entries(self.0.clone()).finish()
    }
}

/// An info of a path with its hops.
#[derive(Clone, Copy, PartialEq, Eq)]
pub struct Segment<'a> {
    /// The info.
    pub info: InfoField,
    hops: &'a [u8],
}

impl<'a> Segment<'a> {
    /// The hops, in the order of travel.
    pub fn hops(
        &self,
    ) -> impl ExactSizeIterator<Item = HopField> + DoubleEndedIterator + Clone + 'a {
        records(self.hops, HOP_SIZE, HopField::read)
    }
}

impl Debug for Segment<'_> {
    fn fmt(&self, f: &mut Formatter<'_>) -> fmt::Result {
        f.debug_struct("Segment")
            .field("info", &self.info)
            .field("hops", &List(self.hops()))
            .finish()
    }
}

/// An info field of a path.
#[derive(Clone, Copy, Debug, PartialEq, Eq, Hash)]
pub struct InfoField {
    /// In construction direction?
    pub construction: bool,
    /// Through a peer?
    pub peering: bool,
    /// The count of its hops.
    pub hops: u8,
    /// The segment id that the path starts with here.
    pub id: u16,
    /// The segment's timestamp.
    pub timestamp: u32,
}

impl InfoField {
    fn read(info: &[u8]) -> Self {
        Self {
            construction: info[INFO_FLAGS] & CONSTRUCTION != 0,
            peering: info[INFO_FLAGS] & PEERING != 0,
            hops: info[INFO_HOP_COUNT],
            id: u16_at(info, INFO_ID),
            timestamp: u32_at(info, INFO_TIMESTAMP),
        }
    }

    /// The flags as the wire has them: one for construction direction, one for peering.
    pub const fn flags(&self) -> u8 {
        (self.construction as u8 * CONSTRUCTION) | (self.peering as u8 * PEERING)
    }
}

/// A hop, as a segment's entry, a peer or a path holds it.
#[derive(Clone, Copy, Debug, Default, PartialEq, Eq, Hash)]
pub struct HopField {
    /// The expiry in units: the hop lives floor((units + 1) × 675 / 2) seconds.
    pub units: u8,
    /// The interface at which it is entered, in construction direction.
    pub ingress: u16,
    /// The interface at which it is left, in construction direction.
    pub egress: u16,
    /// The MAC.
    pub mac: [u8; MAC_SIZE],
}

impl HopField {
    fn read(hop: &[u8]) -> Self {
        Self {
            units: hop[HOP_UNITS],
            ingress: u16_at(hop, HOP_INGRESS),
            egress: u16_at(hop, HOP_EGRESS),
            mac: array(hop, HOP_MAC),
        }
    }
}

/// An interface that a path passes. It is written as `1-ff00:0:111#7`.
#[derive(Clone, Copy, Debug, PartialEq, Eq, PartialOrd, Ord, Hash)]
pub struct PathInterface {
    /// Its AS.
    pub isd_asn: IsdAsn,
    /// Its id within the AS.
    pub id: u16,
}

impl Display for PathInterface {
    fn fmt(&self, f: &mut Formatter<'_>) -> fmt::Result {
        write!(f, "{}#{}", self.isd_asn, self.id)
    }
}
