// Images: there and back, damaged ones, and files.

mod common;

use common::{same, Model, Random};
use prelgammo::{ListOrderedMultimap, Refused};
use std::path::PathBuf;
use std::{fs, io};

// The image as document 01 lays it out.
fn layout(pairs: &[(u64, u64)], members: u32) -> Vec<u8> {
    let sizes = [(pairs.len() as u32).to_le_bytes(), members.to_le_bytes()].concat();
    let keys: Vec<u8> = pairs.iter().flat_map(|pair| pair.0.to_le_bytes()).collect();
    let values: Vec<u8> = pairs.iter().flat_map(|pair| pair.1.to_le_bytes()).collect();
    [sizes, keys, values].concat()
}

// The model of an image's map.
fn appended(pairs: &[(u64, u64)]) -> Model {
    let mut model = Model::default();
    for &(key, value) in pairs {
        model.append(key, value).unwrap();
    }
    model
}

fn some_pairs(random: &mut Random, count: usize, keys: usize) -> Vec<(u64, u64)> {
    let pool: Vec<u64> = (0..keys).map(|_| random.next()).collect();
    (0..count).map(|_| (pool[random.below(keys)], random.next())).collect()
}

#[test]
fn there_and_back() {
    let mut random = Random(7);
    for (count, keys) in [(0, 1), (1, 1), (5, 2), (300, 17), (1024, 1), (1024, 256), (1023, 200)] {
        let pairs = some_pairs(&mut random, count, keys);
        let model = appended(&pairs);
        let map = ListOrderedMultimap::from_pairs(&pairs).unwrap();
        same(&map, &model);
        let bytes = map.to_bytes();
        assert_eq!(bytes, layout(&pairs, model.members.len() as u32));
        same(&ListOrderedMultimap::from_bytes(&bytes).unwrap(), &model);
    }
}

#[test]
fn an_image_has_the_pairs_and_not_the_joining_order() {
    let mut map = ListOrderedMultimap::from_pairs(&[(7, 10), (9, 20), (7, 11)]).unwrap();
    map.insert(7, 12).unwrap();
    assert!(map.keys().eq([7, 9]));
    let back = ListOrderedMultimap::from_bytes(&map.to_bytes()).unwrap();
    assert_eq!(back, map);
    assert!(back.keys().eq([9, 7]));
    assert_eq!((map.taken()[0], back.taken()[0]), (4, 2));
}

#[test]
fn from_pairs_is_refused_as_the_appends_are() {
    let one_each = |count: u64| -> Vec<(u64, u64)> { (0..count).map(|at| (at, at)).collect() };
    let in_turn = |count: u64| -> Vec<(u64, u64)> { (0..count).map(|at| (at % 256, at)).collect() };
    let refusal = |pairs: &[(u64, u64)]| {
        let mut map = ListOrderedMultimap::new();
        pairs.iter().find_map(|&(key, value)| map.append(key, value).err())
    };
    let late = [in_turn(1024), one_each(300)].concat();
    for pairs in [one_each(256), one_each(257), one_each(2000), in_turn(1024), in_turn(1025), late] {
        assert_eq!(ListOrderedMultimap::from_pairs(&pairs).err(), refusal(&pairs));
    }
}

#[test]
fn damaged_images_are_refused() {
    let pairs = [(7, 10), (9, 20), (7, 11)];
    let good = layout(&pairs, 2);
    let refused = |bytes: &[u8]| ListOrderedMultimap::from_bytes(bytes).unwrap_err();
    for length in 0..8 {
        assert_eq!(refused(&good[..length]), Refused::TooShort);
    }
    for length in 8..good.len() {
        assert_eq!(refused(&good[..length]), Refused::WrongLength);
    }
    assert_eq!(refused(&[&good[..], &[0]].concat()), Refused::WrongLength);
    for members in [0, 1, 3, 256] {
        assert_eq!(refused(&layout(&pairs, members)), Refused::WrongMembers);
    }
    for members in [257, u32::MAX] {
        assert_eq!(refused(&layout(&pairs, members)), Refused::TooMany);
    }
    let many: Vec<(u64, u64)> = (0..1025).map(|at| (at % 4, at)).collect();
    assert_eq!(refused(&layout(&many, 4)), Refused::TooMany);
    let crowd: Vec<(u64, u64)> = (0..257).map(|at| (at, at)).collect();
    assert_eq!(refused(&layout(&crowd, 256)), Refused::WrongMembers);
}

// The same image for limits that just hold it, one below and one above; and 15 before all else.
#[test]
fn an_image_is_read_into_limits() {
    let pairs = [(7, 10), (9, 20), (7, 11)];
    let image = layout(&pairs, 2);
    let read = |bytes: &[u8], members, rounds| ListOrderedMultimap::from_bytes_with_limits(bytes, members, rounds);
    for (members, rounds) in [(2, 3), (3, 3), (2, 4), (256, 1024)] {
        same(&read(&image, members, rounds).unwrap(), &appended(&pairs));
    }
    for (members, rounds) in [(1, 3), (2, 2), (0, 0), (1, 1024), (256, 2)] {
        assert_eq!(read(&image, members, rounds), Err(Refused::TooMany));
    }
    let mut map = read(&image, 2, 3).unwrap();
    assert_eq!(map.append(7, 12), Err(Refused::Full));
    assert!(map.pop_front().is_some());
    assert_eq!((map.append(4, 1), map.append(7, 12)), (Err(Refused::Crowded), Ok(true)));
    // more members than the limit, where m is not
    assert_eq!(read(&layout(&[(1, 1), (2, 2), (3, 3)], 2), 2, 3), Err(Refused::WrongMembers));
    for bytes in [&image[..], &image[..7], &image[..9], &[]] {
        assert_eq!(read(bytes, 257, 1024), Err(Refused::LimitsAbove));
        assert_eq!(read(bytes, 256, 1025), Err(Refused::LimitsAbove));
    }
    assert_eq!(read(&[], 0, 0), Err(Refused::TooShort));
    assert_eq!(read(&layout(&[], 0), 0, 0).map(|map| map.values_len()), Ok(0));
}

// One byte of an image set to any other: refused, or the map of the pairs that it then has.
#[test]
fn any_byte_may_be_damaged() {
    let mut random = Random(11);
    let pairs: Vec<(u64, u64)> = (0..6).map(|at| (at % 3, at)).collect();
    let good = layout(&pairs, 3);
    for at in 0..good.len() {
        for _ in 0..8 {
            let mut bytes = good.clone();
            bytes[at] = random.next() as u8;
            if let Ok(map) = ListOrderedMultimap::from_bytes(&bytes) {
                same(&map, &appended(&map.iter().collect::<Vec<_>>()));
                assert_eq!(map.to_bytes(), bytes);
            }
        }
    }
}

// A folder of its own for each test, removed when the test ends.
struct Folder(PathBuf);

impl Folder {
    fn new(name: &str) -> Folder {
        let path = std::env::temp_dir().join(format!("prelgammo-{name}-{}", std::process::id()));
        fs::create_dir_all(&path).unwrap();
        Folder(path)
    }

    fn names(&self) -> Vec<String> {
        let names = fs::read_dir(&self.0).unwrap().map(|file| file.unwrap().file_name().into_string().unwrap());
        names.collect()
    }
}

impl Drop for Folder {
    fn drop(&mut self) {
        let _ = fs::remove_dir_all(&self.0);
    }
}

#[test]
fn a_file_is_there_and_back() {
    let folder = Folder::new("file");
    let path = folder.0.join("rounds");
    let mut map = ListOrderedMultimap::new();
    for value in 0..1024 {
        map.append(value % 200, value).unwrap();
        if value % 100 == 0 || value == 1023 {
            map.save(&path).unwrap();
            assert_eq!(ListOrderedMultimap::load(&path).unwrap(), map);
        }
    }
    assert_eq!(folder.names(), ["rounds"]);
}

#[test]
fn a_file_is_loaded_into_limits() {
    let folder = Folder::new("limits");
    let path = folder.0.join("rounds");
    let mut map = ListOrderedMultimap::with_limits(2, 3).unwrap();
    map.try_extend([(7, 10), (9, 20), (7, 11)]).unwrap();
    map.save(&path).unwrap();
    let mut loaded = ListOrderedMultimap::load_with_limits(&path, 2, 3).unwrap();
    assert_eq!((loaded == map, loaded.append(7, 12)), (true, Err(Refused::Full)));
    // the file does not have the limits
    assert_eq!(ListOrderedMultimap::load(&path).unwrap().append(4, 30), Ok(false));
    let refused = |members, rounds| {
        let error = ListOrderedMultimap::load_with_limits(&path, members, rounds).unwrap_err();
        error.downcast::<Refused>().unwrap()
    };
    assert_eq!((refused(2, 2), refused(1, 3)), (Refused::TooMany, Refused::TooMany));
    assert_eq!((refused(257, 3), refused(2, 1025)), (Refused::LimitsAbove, Refused::LimitsAbove));
}

#[test]
fn a_save_that_fails_leaves_nothing() {
    let folder = Folder::new("fails");
    let map = ListOrderedMultimap::from_pairs(&[(7, 10)]).unwrap();
    // a folder has the name, so that the file cannot take it
    fs::create_dir(folder.0.join("taken")).unwrap();
    assert!(map.save(folder.0.join("taken")).is_err());
    assert!(map.save(folder.0.join("absent/rounds")).is_err());
    assert!(map.save(folder.0.join("..")).is_err());
    assert_eq!(folder.names(), ["taken"]);
}

// Left by a process that was ended while it saved, and of the same number: its files are stepped over.
#[test]
fn left_over_files_are_left_alone() {
    let folder = Folder::new("left");
    let left: Vec<String> = (0..200).map(|count| format!("rounds.{}.{count}.new", std::process::id())).collect();
    for name in &left {
        fs::write(folder.0.join(name), "left").unwrap();
    }
    let map = ListOrderedMultimap::from_pairs(&[(7, 10)]).unwrap();
    map.save(folder.0.join("rounds")).unwrap();
    assert_eq!(ListOrderedMultimap::load(folder.0.join("rounds")).unwrap(), map);
    assert!(left.iter().all(|name| fs::read(folder.0.join(name)).unwrap() == b"left"));
    assert_eq!(folder.names().len(), 201);
}

#[cfg(unix)]
mod unix {
    use super::*;
    use std::os::unix::fs::{symlink, PermissionsExt};
    use std::os::unix::net::UnixListener;

    fn a_map() -> ListOrderedMultimap {
        ListOrderedMultimap::from_pairs(&[(7, 10), (9, 20)]).unwrap()
    }

    #[test]
    fn a_file_keeps_its_mode() {
        let folder = Folder::new("mode");
        for mode in [0o600, 0o640, 0o444, 0o666] {
            let path = folder.0.join(format!("rounds-{mode:o}"));
            fs::write(&path, "old").unwrap();
            fs::set_permissions(&path, fs::Permissions::from_mode(mode)).unwrap();
            a_map().save(&path).unwrap();
            assert_eq!(fs::metadata(&path).unwrap().permissions().mode() & 0o7777, mode);
            assert_eq!(ListOrderedMultimap::load(&path).unwrap(), a_map());
        }
    }

    // A link to a link in another folder, by a path from there.
    #[test]
    fn a_symbolic_link_is_followed_and_stays() {
        let folder = Folder::new("link");
        let [path, near, far] = ["rounds", "near", "there/far"].map(|name| folder.0.join(name));
        fs::create_dir(folder.0.join("there")).unwrap();
        symlink("../rounds", &far).unwrap();
        symlink("there/far", &near).unwrap();
        // once where the file is not there yet, and once where it is
        for map in [a_map(), ListOrderedMultimap::new()] {
            map.save(&near).unwrap();
            assert_eq!(ListOrderedMultimap::load(&path).unwrap(), map);
        }
        assert_eq!(fs::read_link(&near).unwrap().to_str(), Some("there/far"));
        assert_eq!(fs::read_link(&far).unwrap().to_str(), Some("../rounds"));
        assert_eq!((folder.names().len(), fs::read_dir(folder.0.join("there")).unwrap().count()), (3, 1));
    }

    #[test]
    fn links_in_a_ring_lead_nowhere() {
        let folder = Folder::new("ring");
        symlink("one", folder.0.join("other")).unwrap();
        symlink("other", folder.0.join("one")).unwrap();
        assert!(a_map().save(folder.0.join("one")).is_err());
        assert_eq!(folder.names().len(), 2);
    }

    #[test]
    fn what_is_no_plain_file_is_left_alone() {
        let folder = Folder::new("socket");
        let path = folder.0.join("socket");
        let _socket = UnixListener::bind(&path).unwrap();
        assert_eq!(a_map().save(&path).unwrap_err().kind(), io::ErrorKind::InvalidInput);
        assert!(!fs::metadata(&path).unwrap().is_file());
        assert_eq!(folder.names(), ["socket"]);
    }
}

#[test]
fn many_threads_save_to_one_file() {
    let folder = Folder::new("threads");
    let path = folder.0.join("rounds");
    let maps: Vec<_> =
        (1..=8).map(|n| ListOrderedMultimap::from_pairs(&vec![(n, n); 100 * n as usize]).unwrap()).collect();
    std::thread::scope(|scope| {
        for map in &maps {
            scope.spawn(|| (0..20).for_each(|_| map.save(&path).unwrap()));
        }
        for _ in 0..50 {
            match ListOrderedMultimap::load(&path) {
                Ok(map) => assert!(maps.contains(&map)),
                Err(error) => assert_eq!(error.kind(), io::ErrorKind::NotFound),
            }
        }
    });
    assert_eq!(folder.names(), ["rounds"]);
}

#[test]
fn a_file_that_is_no_image_is_refused() {
    let folder = Folder::new("none");
    let path = folder.0.join("rounds");
    let refused = |bytes: &[u8]| {
        fs::write(&path, bytes).unwrap();
        let error = ListOrderedMultimap::load(&path).unwrap_err();
        assert_eq!(error.kind(), io::ErrorKind::InvalidData);
        error.downcast::<Refused>().unwrap()
    };
    assert_eq!(refused(b""), Refused::TooShort);
    assert_eq!(refused(&[0; 9]), Refused::WrongLength);
    assert_eq!(refused(&[255; 100_000]), Refused::TooMany);
    assert_eq!(refused(&[0; 100_000]), Refused::WrongLength);
    let largest = ListOrderedMultimap::from_pairs(&[(7, 10); 1024]).unwrap().to_bytes();
    assert_eq!(refused(&[&largest[..], &[0]].concat()), Refused::WrongLength);
    let absent = ListOrderedMultimap::load(folder.0.join("absent")).unwrap_err();
    assert_eq!(absent.kind(), io::ErrorKind::NotFound);
}
