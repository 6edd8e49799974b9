//! Files with sets of peers, which are renamed into place.
//!
//! A file has a line `index NUMBER`, and a line `primary KEY` or `secondary KEY` for each peer. A
//! line that is empty or begins with `#` means nothing. In a folder each file whose name doesn't
//! begin with a point is a set.

use p2p_directory::{Key, OrderedSet, TrackedPeers};
use std::collections::BTreeMap;
use std::fmt::Display;
use std::fs::{self, File, Metadata};
use std::io::{ErrorKind, Read};
use std::os::unix::fs::MetadataExt;
use std::path::{Path, PathBuf};

/// The maximum length of a file, in bytes.
const LONGEST_FILE: u64 = 1 << 26;

/// A set of peers with its index.
#[derive(Clone, Debug, PartialEq, Eq)]
pub struct PeerSet {
    /// The index. Of two sets the later one has the higher index.
    pub index: u64,
    /// The peers. None of the secondary ones is primary.
    pub peers: TrackedPeers,
}

impl PeerSet {
    /// Reads the text of a file.
    ///
    /// # Errors
    ///
    /// Names the line that is refused, and why.
    pub fn parse(text: &str) -> Result<PeerSet, String> {
        let mut index = None;
        let (mut primary, mut secondary) = (Vec::new(), Vec::new());
        for (number, line) in (1..).zip(text.lines()) {
            let said = |why: &dyn Display| format!("line {number}: {why}");
            let line = line.trim();
            if line.is_empty() || line.starts_with('#') {
                continue;
            }
            let (name, value) = line
                .split_once(char::is_whitespace)
                .ok_or_else(|| said(&"not of the form NAME VALUE"))?;
            let key = || value.trim().parse::<Key>().map_err(|error| said(&error));
            match name {
                "index" if index.is_some() => return Err(said(&"a second index")),
                "index" => index = Some(value.trim().parse().map_err(|error| said(&error))?),
                "primary" => primary.push(key()?),
                "secondary" => secondary.push(key()?),
                _ => return Err(said(&"neither index, primary nor secondary")),
            }
        }
        let index = index.ok_or("no line with the index")?;
        let primary = OrderedSet::from_iter_dedup(primary);
        let others = secondary.into_iter();
        let others = others.filter(|key| primary.position(key).is_none());
        let secondary = OrderedSet::from_iter_dedup(others);
        let peers = TrackedPeers::new(primary, secondary);
        Ok(PeerSet { index, peers })
    }
}

/// What tells a file from the one that was there before.
#[derive(Clone, Copy, Debug, PartialEq, Eq)]
struct Stamp {
    device: u64,
    inode: u64,
    length: u64,
    seconds: i64,
    nanoseconds: i64,
}

impl Stamp {
    fn of(metadata: &Metadata) -> Stamp {
        Stamp {
            device: metadata.dev(),
            inode: metadata.ino(),
            length: metadata.len(),
            seconds: metadata.mtime(),
            nanoseconds: metadata.mtime_nsec(),
        }
    }
}

/// A file or folder with sets, and what was read of it.
#[derive(Debug)]
pub struct SetFiles {
    path: PathBuf,
    seen: BTreeMap<PathBuf, Stamp>,
    // What was said last of the path itself, so that it is said once.
    said: Option<String>,
}

/// A set that was read, or why a file was refused.
#[derive(Debug)]
pub struct Loaded {
    /// The file.
    pub path: PathBuf,
    /// Its set, or the reason why it has none.
    pub set: Result<PeerSet, String>,
}

impl SetFiles {
    /// The file or folder at a path, of which nothing was read.
    #[must_use]
    pub fn new(path: PathBuf) -> SetFiles {
        SetFiles {
            path,
            seen: BTreeMap::new(),
            said: None,
        }
    }

    /// Reads each file that has changed since the last call. The refused ones come first, then the
    /// sets in the order of their indices.
    pub fn load(&mut self) -> Vec<Loaded> {
        let files = match self.files() {
            Ok(files) => {
                self.said = None;
                files
            }
            Err(why) => return self.say(why),
        };
        self.seen.retain(|path, _| files.contains_key(path));
        let mut loaded = Vec::new();
        for (path, stamp) in files {
            if self.seen.get(&path) != Some(&stamp) {
                self.seen.insert(path.clone(), stamp);
                let set = SetFiles::read(&path);
                loaded.push(Loaded { path, set });
            }
        }
        loaded.sort_by_key(|loaded| loaded.set.as_ref().ok().map(|set| set.index));
        loaded
    }

    /// Lets the next call of [`SetFiles::load`] read this file again.
    pub fn forget(&mut self, path: &Path) {
        self.seen.remove(path);
    }

    fn say(&mut self, why: String) -> Vec<Loaded> {
        if self.said.as_ref() == Some(&why) {
            return Vec::new();
        }
        self.said = Some(why.clone());
        vec![Loaded {
            path: self.path.clone(),
            set: Err(why),
        }]
    }

    fn files(&self) -> Result<BTreeMap<PathBuf, Stamp>, String> {
        let said = |error: std::io::Error| error.to_string();
        let metadata = fs::metadata(&self.path).map_err(said)?;
        if !metadata.is_dir() {
            return Ok(BTreeMap::from([(self.path.clone(), Stamp::of(&metadata))]));
        }
        let mut files = BTreeMap::new();
        for entry in fs::read_dir(&self.path).map_err(said)? {
            let entry = entry.map_err(said)?;
            if entry.file_name().as_encoded_bytes().starts_with(b".") {
                continue;
            }
            match fs::metadata(entry.path()) {
                Ok(metadata) if metadata.is_file() => {
                    files.insert(entry.path(), Stamp::of(&metadata));
                }
                // It was renamed or removed meanwhile.
                Err(error) if error.kind() == ErrorKind::NotFound => {}
                Ok(_) => {}
                Err(error) => return Err(said(error)),
            }
        }
        Ok(files)
    }

    fn read(path: &Path) -> Result<PeerSet, String> {
        let mut text = String::new();
        let file = File::open(path).map_err(|error| error.to_string())?;
        let read = file.take(LONGEST_FILE).read_to_string(&mut text);
        read.map_err(|error| error.to_string())?;
        PeerSet::parse(&text)
    }
}

#[cfg(test)]
mod tests {
    use super::*;
    use p2p_directory::testing::key;

    #[test]
    fn reads_the_peers_of_both_roles() {
        let (one, two, three) = (key(1), key(2), key(3));
        let text = format!(
            "# a set\nindex 7\n\nprimary {two}\nprimary {one}\nsecondary {three}\nsecondary {two}\n"
        );
        let set = PeerSet::parse(&text).unwrap();
        assert_eq!(set.index, 7);
        assert_eq!(set.peers.primary.to_vec(), [one, two]);
        assert_eq!(set.peers.secondary.to_vec(), [three]);
    }

    #[test]
    fn names_the_line_that_is_refused() {
        let one = key(1);
        for (text, why) in [
            (String::new(), "no line with the index"),
            ("index 1\nindex 2".to_owned(), "line 2: a second index"),
            ("index -1".to_owned(), "line 1: invalid digit"),
            (
                "index 1\nprimary 12".to_owned(),
                "line 2: invalid number of digits: 2",
            ),
            (format!("index 1\n\npeer {one}"), "line 3: neither index"),
            ("index".to_owned(), "line 1: not of the form"),
        ] {
            let error = PeerSet::parse(&text).unwrap_err();
            assert!(error.starts_with(why), "{text}: {error}");
        }
    }

    #[test]
    fn a_file_is_read_when_it_changes_and_refused_once() {
        let folder = std::env::temp_dir().join(format!("p2p-node-sets-{}", std::process::id()));
        fs::create_dir_all(&folder).unwrap();
        let mut files = SetFiles::new(folder.clone());
        assert!(files.load().is_empty());
        let place = |name: &str, text: &str| {
            let hidden = folder.join(".new");
            fs::write(&hidden, text).unwrap();
            fs::rename(hidden, folder.join(name)).unwrap();
        };
        place("b", "index 1\n");
        place("a", "index 2\n");
        place("c", "what\n");
        let indices = |loaded: &[Loaded]| -> Vec<Option<u64>> {
            let sets = loaded.iter().map(|loaded| loaded.set.as_ref().ok());
            sets.map(|set| set.map(|set| set.index)).collect()
        };
        assert_eq!(indices(&files.load()), [None, Some(1), Some(2)]);
        assert!(files.load().is_empty());
        place("b", "index 3\n");
        assert_eq!(indices(&files.load()), [Some(3)]);
        files.forget(&folder.join("a"));
        assert_eq!(indices(&files.load()), [Some(2)]);
        fs::remove_dir_all(&folder).unwrap();
        assert_eq!(indices(&files.load()), [None]);
        assert!(files.load().is_empty());
    }
}
