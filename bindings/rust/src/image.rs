// The image of a map: sizes first, n values and m keys in four bytes each, then n keys and n values in eight bytes
// each; every number lowest byte first.

use crate::ffi::Map;
use crate::{ListOrderedMultimap, Refused, MEMBERS, ROUNDS};
use std::fs::{self, File, OpenOptions, Permissions};
use std::io::{self, Read, Write};
use std::path::{Path, PathBuf};
use std::sync::atomic::{AtomicU64, Ordering};

// The bytes of the largest image.
const MOST_BYTES: usize = 8 + 16 * ROUNDS;

// The symbolic links that are followed in a row, as many as Linux follows.
const MOST_LINKS: usize = 40;

impl ListOrderedMultimap {
    /// The image of the map: its pairs in order. What else there is of a map is not in it, namely its limits, the order of
    /// the keys, where it is not that of their first values, and [`taken`](ListOrderedMultimap::taken).
    ///
    /// ```
    /// use prelgammo::ListOrderedMultimap;
    ///
    /// let mut map = ListOrderedMultimap::new();
    /// map.append(7, 10)?;
    /// let bytes = map.to_bytes();
    /// assert_eq!(bytes, [1, 0, 0, 0, 1, 0, 0, 0, 7, 0, 0, 0, 0, 0, 0, 0, 10, 0, 0, 0, 0, 0, 0, 0]);
    /// # Ok::<(), prelgammo::Refused>(())
    /// ```
    #[must_use]
    pub fn to_bytes(&self) -> Vec<u8> {
        self.map.write_image()
    }

    /// The map of an image, with the highest limits: the same pairs, the keys in the order of their first values, and as
    /// many values [`taken`](ListOrderedMultimap::taken) in as it has, all of them from poster 0. Refused by 11 to 14.
    ///
    /// ```
    /// use prelgammo::{ListOrderedMultimap, Refused};
    ///
    /// let mut map = ListOrderedMultimap::new();
    /// map.append(7, 10)?;
    /// let mut bytes = map.to_bytes();
    /// assert_eq!(ListOrderedMultimap::from_bytes(&bytes), Ok(map));
    /// bytes.pop();
    /// assert_eq!(ListOrderedMultimap::from_bytes(&bytes), Err(Refused::WrongLength));
    /// # Ok::<(), prelgammo::Refused>(())
    /// ```
    pub fn from_bytes(bytes: &[u8]) -> Result<ListOrderedMultimap, Refused> {
        ListOrderedMultimap::from_bytes_with_limits(bytes, MEMBERS, ROUNDS)
    }

    /// As [`from_bytes`](ListOrderedMultimap::from_bytes), for a map with limits of its own
    /// ([`with_limits`](ListOrderedMultimap::with_limits)). Refused by 15, then by 11 to 14.
    ///
    /// ```
    /// use prelgammo::{ListOrderedMultimap, Refused};
    ///
    /// let bytes = ListOrderedMultimap::from_pairs(&[(7, 10), (7, 11)])?.to_bytes();
    /// let mut map = ListOrderedMultimap::from_bytes_with_limits(&bytes, 1, 2)?;
    /// assert_eq!(map.append(7, 12), Err(Refused::Full));
    /// assert_eq!(ListOrderedMultimap::from_bytes_with_limits(&bytes, 1, 1), Err(Refused::TooMany));
    /// # Ok::<(), prelgammo::Refused>(())
    /// ```
    pub fn from_bytes_with_limits(bytes: &[u8], members: usize, rounds: usize) -> Result<ListOrderedMultimap, Refused> {
        let (map, answer) = Map::read_image(members as u64, rounds as u64, bytes);
        answer.accepted()?.done();
        Ok(ListOrderedMultimap { map })
    }

    /// Writes the image to a file, whole or not at all: to a new file beside it first, which then takes its name. A
    /// symbolic link is followed, and stays. A file that is there keeps its mode, though not its owner, and one that
    /// may only be read is replaced too; what is no plain file is refused.
    ///
    /// A process that is ended while it saves may leave the new file behind, which has the name of the file with
    /// `.PROCESS.COUNT.new` after it. No save uses it again, and it can be deleted.
    ///
    /// An error says that the old file is as it was, but for one: the last step is to sync the folder, so that the name
    /// outlasts a power failure. If that fails, the file has the new image already, and after a power failure it has the
    /// new one or the old one, whole. To save again is safe.
    ///
    /// ```
    /// use prelgammo::ListOrderedMultimap;
    ///
    /// let path = std::env::temp_dir().join(format!("prelgammo-save-{}", std::process::id()));
    /// let map = ListOrderedMultimap::from_pairs(&[(7, 10), (9, 20)]).unwrap();
    /// map.save(&path)?;
    /// assert_eq!(ListOrderedMultimap::load(&path)?, map);
    /// # std::fs::remove_file(&path)?;
    /// # Ok::<(), std::io::Error>(())
    /// ```
    pub fn save(&self, path: impl AsRef<Path>) -> io::Result<()> {
        let path = end_of_links(path.as_ref())?;
        let mode = mode_of(&path)?;
        let folder = File::open(folder(&path))?;
        let (beside, file) = create_beside(&path)?;
        let saved = fill(file, mode, &self.to_bytes()).and_then(|()| fs::rename(&beside, &path));
        if saved.is_err() {
            // what went wrong first is told
            let _ = fs::remove_file(&beside);
        }
        saved?;
        // so that the name, too, outlasts a power failure
        folder.sync_all()
    }

    /// Reads a map from a file with its image, with the highest limits. A refusal comes as an error of the kind
    /// `InvalidData`, with the [`Refused`] inside.
    ///
    /// ```
    /// use prelgammo::{ListOrderedMultimap, Refused};
    ///
    /// let path = std::env::temp_dir().join(format!("prelgammo-load-{}", std::process::id()));
    /// std::fs::write(&path, "not one")?;
    /// let error = ListOrderedMultimap::load(&path).unwrap_err();
    /// assert_eq!(error.downcast::<Refused>().unwrap(), Refused::TooShort);
    /// # std::fs::remove_file(&path)?;
    /// # Ok::<(), std::io::Error>(())
    /// ```
    pub fn load(path: impl AsRef<Path>) -> io::Result<ListOrderedMultimap> {
        ListOrderedMultimap::load_with_limits(path, MEMBERS, ROUNDS)
    }

    /// As [`load`](ListOrderedMultimap::load), for a map with limits of its own
    /// ([`with_limits`](ListOrderedMultimap::with_limits)).
    ///
    /// ```
    /// use prelgammo::{ListOrderedMultimap, Refused};
    ///
    /// let path = std::env::temp_dir().join(format!("prelgammo-limits-{}", std::process::id()));
    /// ListOrderedMultimap::from_pairs(&[(7, 10), (9, 20)]).unwrap().save(&path)?;
    /// let mut map = ListOrderedMultimap::load_with_limits(&path, 2, 3)?;
    /// assert_eq!(map.append(4, 30), Err(Refused::Crowded));
    /// # std::fs::remove_file(&path)?;
    /// # Ok::<(), std::io::Error>(())
    /// ```
    pub fn load_with_limits(path: impl AsRef<Path>, members: usize, rounds: usize) -> io::Result<ListOrderedMultimap> {
        // One byte more than an image can have is refused as any longer file is.
        let mut bytes = Vec::new();
        File::open(path)?.take(MOST_BYTES as u64 + 1).read_to_end(&mut bytes)?;
        let read = ListOrderedMultimap::from_bytes_with_limits(&bytes, members, rounds);
        read.map_err(|refused| io::Error::new(io::ErrorKind::InvalidData, refused))
    }
}

// The file that a path leads to along symbolic links, which need not be there.
fn end_of_links(path: &Path) -> io::Result<PathBuf> {
    let mut path = path.to_path_buf();
    for _ in 0..MOST_LINKS {
        if !fs::symlink_metadata(&path).is_ok_and(|found| found.is_symlink()) {
            return Ok(path);
        }
        // a link that does not begin at the root is read from its own folder
        path = folder(&path).join(fs::read_link(&path)?);
    }
    Err(io::Error::other("the path leads along too many symbolic links"))
}

// The mode of a plain file, where there is one.
fn mode_of(path: &Path) -> io::Result<Option<Permissions>> {
    match fs::metadata(path) {
        Ok(found) if found.is_file() => Ok(Some(found.permissions())),
        Ok(_) => Err(io::Error::new(io::ErrorKind::InvalidInput, "what has this name is no plain file")),
        Err(error) if error.kind() == io::ErrorKind::NotFound => Ok(None),
        Err(error) => Err(error),
    }
}

fn folder(path: &Path) -> &Path {
    match path.parent() {
        Some(folder) if folder != Path::new("") => folder,
        _ => Path::new("."),
    }
}

// A new file in the folder of the path, under a name that nothing else has.
fn create_beside(path: &Path) -> io::Result<(PathBuf, File)> {
    static COUNT: AtomicU64 = AtomicU64::new(0);
    let Some(name) = path.file_name() else {
        return Err(io::Error::new(io::ErrorKind::InvalidInput, "the path names no file"));
    };
    loop {
        let mut other = name.to_os_string();
        other.push(format!(".{}.{}.new", std::process::id(), COUNT.fetch_add(1, Ordering::Relaxed)));
        let beside = path.with_file_name(other);
        match OpenOptions::new().write(true).create_new(true).open(&beside) {
            Err(error) if error.kind() == io::ErrorKind::AlreadyExists => continue,
            opened => return opened.map(|file| (beside, file)),
        }
    }
}

// Sets the mode first, so that no one reads what he may not.
fn fill(mut file: File, mode: Option<Permissions>, bytes: &[u8]) -> io::Result<()> {
    if let Some(mode) = mode {
        file.set_permissions(mode)?;
    }
    file.write_all(bytes)?;
    file.sync_all()
}
