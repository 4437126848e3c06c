//! A client over gitoxide: `gix_peer VERB ADDRESS FOLDER`. `deepen`, `unshallow` and `fetch` use that of the remote.

use gix::bstr::ByteSlice;
use gix::progress::Discard;
use gix::remote::{fetch::Shallow, fetch::Tags, ref_map::Options, Direction};
use std::{error::Error, num::NonZeroU32, sync::atomic::AtomicBool};

static NEVER: AtomicBool = AtomicBool::new(false);

fn main() {
    let words: Vec<String> = std::env::args().skip(1).collect();
    let [verb, address, folder @ ..] = words.as_slice() else { panic!("gix_peer VERB ADDRESS FOLDER") };
    let folder = folder.first().map_or("", String::as_str);
    let done = match verb.as_str() {
        "list" => list(address),
        "clone" | "bare" | "branch" | "depth" => copy(verb, address, folder),
        "deepen" | "unshallow" | "fetch" => fetch(verb, folder),
        _ => std::process::exit(125), // gitoxide has no filters
    };
    if let Err(error) = done {
        let mut cause: Option<&dyn Error> = Some(error.as_ref());
        while let Some(it) = cause {
            eprintln!("error: {it}");
            cause = it.source();
        }
        std::process::exit(1);
    }
}

/// Prints what the server lists, a line for each reference.
fn list(address: &str) -> Result<(), Box<dyn Error>> {
    let folder = std::env::temp_dir().join(format!("gix_peer.{}", std::process::id()));
    let repository = gix::init_bare(&folder)?;
    let remote = repository.remote_at(address)?.with_fetch_tags(Tags::None).with_refspecs(["+HEAD", "+refs/*:refs/*"], Direction::Fetch)?;
    let options = Options { prefix_from_spec_as_filter_on_remote: false, ..Options::default() };
    let map = remote.connect(Direction::Fetch)?.ref_map(Discard, options)?;
    for reference in map.0.remote_refs {
        let (name, id, peeled) = reference.unpack();
        println!("{} {} {}", id.map_or("unborn".into(), |it| it.to_string()), name.as_bstr(), peeled.map_or(String::new(), |it| it.to_string()));
    }
    Ok(std::fs::remove_dir_all(folder)?)
}

fn copy(verb: &str, address: &str, folder: &str) -> Result<(), Box<dyn Error>> {
    if verb == "bare" {
        gix::prepare_clone_bare(address, folder)?.fetch_only(Discard, &NEVER)?;
        return Ok(());
    }
    let mut clone = gix::prepare_clone(address, folder)?;
    if verb == "branch" {
        let spec = "+refs/heads/topic:refs/remotes/origin/topic";
        clone = clone.with_ref_name(Some("topic"))?.configure_remote(move |it| Ok(it.with_refspecs([spec], Direction::Fetch)?));
    } else if verb == "depth" {
        clone = clone.with_shallow(Shallow::DepthAtRemote(NonZeroU32::MIN));
    }
    clone.fetch_then_checkout(Discard, &NEVER)?.0.main_worktree(Discard, &NEVER)?;
    Ok(())
}

fn fetch(verb: &str, folder: &str) -> Result<(), Box<dyn Error>> {
    let repository = gix::open(folder)?;
    let shallow = match verb {
        "deepen" => Shallow::Deepen(1),
        "unshallow" => Shallow::undo(),
        _ => Shallow::NoChange,
    };
    let remote = repository.find_remote("origin")?;
    remote.connect(Direction::Fetch)?.prepare_fetch(Discard, Options::default())?.with_shallow(shallow).receive(Discard, &NEVER)?;
    Ok(())
}
