//! Tags: words by which a process says what it is.
use std::cmp::Ordering;
use std::collections::BTreeMap;
use std::sync::Mutex;

/// The most tags of a process, and the most bytes of one.
const MOST_TAGS: usize = 8;
const MOST_TAG_BYTES: usize = 64;

/// The tags of a process: the number of a list that is kept, or 0 for none. Equal tags have one
/// number.
#[derive(Clone, Copy, PartialEq, Eq, Hash)]
pub struct Tags(u16);

/// Why tags are refused.
#[derive(Clone, Copy, Debug)]
pub enum TagFault {
    TooManyTags,
    BadTag,
    TagsNotSorted,
}

/// The lists that were met, each kept once and for good. A list is its bytes: the number of tags,
/// and each tag behind its length.
struct Lists {
    bytes: Vec<&'static [u8]>,
    numbers: BTreeMap<&'static [u8], u16>,
}

static LISTS: Mutex<Lists> = Mutex::new(Lists { bytes: Vec::new(), numbers: BTreeMap::new() });

fn is_tag(tag: &[u8]) -> bool {
    let is_allowed = |b: &u8| matches!(b, 0x21..=0x7e) && !b",[]".contains(b);
    (1..=MOST_TAG_BYTES).contains(&tag.len()) && tag.iter().all(is_allowed)
}

/// The tag behind the length in front of the bytes, and what follows.
fn split_tag(bytes: &[u8]) -> Option<(&[u8], &[u8])> {
    let (&length, rest) = bytes.split_first()?;
    rest.split_at_checked(length as usize)
}

/// How many bytes the list in front takes; none if it is refused.
fn list_length(bytes: &[u8]) -> Option<usize> {
    let (&count, mut rest) = bytes.split_first()?;
    if count as usize > MOST_TAGS {
        return None;
    }
    let mut before: &[u8] = &[];
    for _ in 0..count {
        let (tag, after) = split_tag(rest)?;
        if !is_tag(tag) || tag <= before {
            return None;
        }
        (before, rest) = (tag, after);
    }
    Some(bytes.len() - rest.len())
}

impl Tags {
    pub const NONE: Tags = Tags(0);

    /// The tags of a list, which has some.
    fn of(list: &[u8]) -> Tags {
        let mut kept = LISTS.lock().unwrap();
        if let Some(number) = kept.numbers.get(list) {
            return Tags(*number);
        }
        let list: &'static [u8] = Box::leak(list.into());
        kept.bytes.push(list);
        let number = kept.bytes.len().try_into().expect("65,535 lists of tags at most");
        kept.numbers.insert(list, number);
        Tags(number)
    }

    #[cold]
    fn list(self) -> &'static [u8] {
        match self {
            Tags::NONE => &[0],
            Tags(number) => LISTS.lock().unwrap().bytes[number as usize - 1],
        }
    }

    pub fn new(tags: &[&[u8]]) -> Result<Tags, TagFault> {
        if tags.len() > MOST_TAGS {
            return Err(TagFault::TooManyTags);
        }
        if !tags.iter().all(|tag| is_tag(tag)) {
            return Err(TagFault::BadTag);
        }
        if !tags.windows(2).all(|w| w[0] < w[1]) {
            return Err(TagFault::TagsNotSorted);
        }
        if tags.is_empty() {
            return Ok(Tags::NONE);
        }
        let mut list = vec![tags.len() as u8];
        for tag in tags {
            list.push(tag.len() as u8);
            list.extend_from_slice(tag);
        }
        Ok(Tags::of(&list))
    }

    /// The tags in front of the bytes, and what follows.
    pub fn read(bytes: &[u8]) -> Option<(Tags, &[u8])> {
        match bytes.split_first()? {
            (0, rest) => Some((Tags::NONE, rest)),
            _ => Tags::read_some(bytes),
        }
    }

    #[cold]
    fn read_some(bytes: &[u8]) -> Option<(Tags, &[u8])> {
        let (list, rest) = bytes.split_at(list_length(bytes)?);
        Some((Tags::of(list), rest))
    }

    /// Puts the list behind what is there.
    pub fn put(self, out: &mut Vec<u8>) {
        match self {
            Tags::NONE => out.push(0),
            some => out.extend_from_slice(some.list()),
        }
    }

    /// Prints the tags between brackets, if there are any.
    pub fn print(self, out: &mut Vec<u8>) {
        if self == Tags::NONE {
            return;
        }
        let (mut mark, mut rest) = (b'[', &self.list()[1..]);
        while let Some((tag, after)) = split_tag(rest) {
            out.push(mark);
            out.extend_from_slice(tag);
            (mark, rest) = (b',', after);
        }
        out.push(b']');
    }
}

/// Tags are in the order of their lists' bytes.
impl Ord for Tags {
    fn cmp(&self, other: &Tags) -> Ordering {
        if self == other {
            return Ordering::Equal;
        }
        self.list().cmp(other.list())
    }
}

impl PartialOrd for Tags {
    fn partial_cmp(&self, other: &Tags) -> Option<Ordering> {
        Some(self.cmp(other))
    }
}
