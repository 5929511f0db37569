//! Pictures of a rack: a character for each position of its shelves, and what the library counted there.
use crate::rack::shelf_name;
use vault_library::{erasures, sizes, stripes, Count, Header};

/// The positions of a line. A longer shelf goes on in the lines below.
const LINE: usize = 32;

/// What a shelf holds, in words.
pub type Holds = fn(Header, u32) -> String;

/// Whether each position of a rack is lost.
pub struct Lost {
    header: Header,
    /// In the image's order.
    positions: Vec<bool>,
}

impl Lost {
    /// What a gap list covers, which keeps the rules.
    pub fn new(header: Header, gaps: &[u8]) -> Lost {
        let bytes = stripes::position(header.k, header.s, header.k, 0).len();
        let mut positions = vec![false; sizes::image(header.k, header.s) / bytes];
        for gap in erasures::ranges(gaps) {
            positions[gap.start / bytes..gap.end.div_ceil(bytes)].fill(true);
        }
        Lost { header, positions }
    }

    /// The positions of a shelf.
    pub fn shelf(&self, stripe: u32) -> &[bool] {
        let Header { k, s, .. } = self.header;
        let first = stripes::position(k, s, stripe, 0);
        &self.positions[first.start / first.len()..][..stripes::positions(stripe)]
    }
}

/// The lines of a picture: what a shelf is called, what it holds, its positions, and columns of what is counted there.
pub struct Lines {
    pub header: Header,
    pub holds: Holds,
}

impl Lines {
    /// All shelves, the oldest first: the full shelf, then the levels down to the newest.
    pub fn rack(&self, heading: String, shelf: impl Fn(u32) -> String) -> String {
        let shelves = (0..=self.header.k).rev();
        heading + &shelves.map(shelf).collect::<String>()
    }

    /// The lines of a shelf that is needed.
    pub fn shelf(&self, stripe: u32, drawn: &[char], columns: &str) -> String {
        let holds = (self.holds)(self.header, stripe);
        let mut lines = drawn
            .chunks(LINE)
            .map(|line| line.iter().collect::<String>());
        let first = lines.next().unwrap_or_default();
        let mut text = line(&self.name(stripe), &holds, &first, columns);
        for (drawn, number) in lines.zip((LINE..).step_by(LINE)) {
            text += &line("", &format!("{number:>22}"), &drawn, "");
        }
        text
    }

    /// The line of a level that is not filled.
    pub fn empty(&self, stripe: u32) -> String {
        line(&self.name(stripe), "empty", "", "")
    }

    fn name(&self, stripe: u32) -> String {
        format!("  {}", shelf_name(self.header.k, stripe))
    }

    /// As many digits as the largest count has.
    pub fn digits(&self) -> usize {
        stripes::positions(self.header.k).to_string().len()
    }
}

/// The line over the shelves.
pub fn heading(positions: &str, columns: &str) -> String {
    line("shelf", "holds", positions, columns)
}

fn line(shelf: &str, holds: &str, positions: &str, columns: &str) -> String {
    let line = format!("   {shelf:<5}   {holds:<22}   {positions:<LINE$}   {columns}");
    line.trim_end().to_owned() + "\n"
}

/// The picture of one reading.
pub struct Picture<'a> {
    lines: Lines,
    lost: Lost,
    /// The counts of the needed shelves. The others are empty.
    counts: &'a [Count],
}

impl Picture<'_> {
    /// A rack that has these counts and a gap list, which keeps the rules.
    pub fn new<'a>(header: Header, gaps: &[u8], counts: &'a [Count], holds: Holds) -> Picture<'a> {
        Picture {
            lines: Lines { header, holds },
            lost: Lost::new(header, gaps),
            counts,
        }
    }

    /// All shelves.
    pub fn rack(&self) -> String {
        let columns = self.columns("left", "needed");
        let heading = heading("positions (# read, . lost)", &columns);
        self.lines.rack(heading, |stripe| self.shelf(stripe))
    }

    /// The lines of a shelf.
    pub fn shelf(&self, stripe: u32) -> String {
        let Some(count) = self.counts.iter().find(|count| count.stripe == stripe) else {
            return self.lines.empty(stripe);
        };
        let digits = self.lines.digits();
        let all = stripes::positions(stripe);
        let left = format!("{:>digits$} of {all:>digits$}", count.left);
        let needed = format!("{:>digits$}{}", count.needed, remark(count));
        let lost = self.lost.shelf(stripe).iter();
        let drawn: Vec<char> = lost.map(|&lost| if lost { '.' } else { '#' }).collect();
        let columns = self.columns(&left, &needed);
        self.lines.shelf(stripe, &drawn, &columns)
    }

    fn columns(&self, left: &str, needed: &str) -> String {
        let width = 2 * self.lines.digits() + 4;
        format!("{left:<width$}   {needed}")
    }
}

/// What follows the number of positions that a shelf needs.
fn remark(count: &Count) -> String {
    match count.shortfall {
        0 if count.left == count.needed => ": just enough".into(),
        0 => String::new(),
        short => format!(": {short} too few"),
    }
}
