//! A command line, read: the inputs' bytes, words, options, and where the output goes.

use super::{Command, Takes, Trouble, OPTIONS};
use crate::dump;
use crate::fault::{Fault, Place};
use crate::hexadecimal;
use crate::layout::{Image, Layout, VERSION_02, VERSION_03};
use crate::names::Names;
use crate::program::Failure;
use crate::record_text::{self, Text};
use crate::tables::Tables;
use crate::unsound::{self, OLD};
use crate::words::{utf8, Word};
use std::fs;
use std::io::Read;
use std::path::{Path, PathBuf};

/// An input with its name.
#[derive(Clone, Debug)]
pub struct Input {
    pub name: String,
    pub bytes: Vec<u8>,
}

/// What the records of `judge` are.
#[derive(Clone, Copy, Debug, Default, PartialEq, Eq)]
pub enum Form {
    #[default]
    Text,
    Hex,
    Raw,
}

#[derive(Default)]
pub struct Call {
    /// The files that are read, in order.
    pub inputs: Vec<Input>,
    /// Every file that is read.
    read: Vec<String>,
    /// Words that are no files, in order.
    pub words: Vec<String>,
    pub raw: bool,
    pub as_is: bool,
    pub record: bool,
    pub form: Form,
    pub image: Option<Input>,
    pub large: bool,
    pub both: bool,
    pub save: Option<String>,
    pub each: Option<String>,
    pub reach: bool,
    pub names: Names,
    pub out: Option<String>,
    pub json: bool,
}

impl Call {
    /// Reads a command line and the files that it names.
    pub fn of(command: &Command, arguments: &[String], input: &mut dyn Read) -> Result<Call, Trouble> {
        let mut call = Call::default();
        let (mut given, mut names, mut image) = (Vec::new(), None, None);
        let (mut left, mut seen) = (arguments.iter(), Vec::new());
        while let Some(argument) = left.next() {
            if argument == "-" || !argument.starts_with('-') {
                given.push(argument.as_str());
                continue;
            }
            let known = OPTIONS.iter().find(|(name, ..)| name == argument && command.options.contains(name));
            let Some((name, value, _)) = known else {
                let there = command.options.join(", ");
                let words = format!("'{argument}' is no option of {}; there are {there}", command.name);
                return Err(Failure::bad_use(words).into());
            };
            if seen.contains(name) {
                return Err(Failure::bad_use(format!("{name} stands twice")).into());
            }
            seen.push(*name);
            let value = match value.is_empty() {
                true => None,
                false => {
                    Some(left.next().cloned().ok_or_else(|| Failure::bad_use(format!("{name} lacks its {value}")))?)
                }
            };
            match *name {
                "--raw" => call.raw = true,
                "--as-is" => call.as_is = true,
                "--record" => call.record = true,
                "--from" => call.form = form(value.as_deref())?,
                "--image" => image = value,
                "--large" => call.large = true,
                "--both" => call.both = true,
                "--save" => call.save = value,
                "--each" => call.each = value,
                "--reach" => call.reach = true,
                "--names" => names = value,
                "--out" => call.out = value,
                _ => call.json = true,
            }
        }
        if call.large && image.is_some() {
            let words = "--large and --image: an image says itself which card it is";
            return Err(
                Failure::bad_use(format!("{words}; 'cardtool enlarge' makes a large one of a small one")).into()
            );
        }
        let files = call.take(command, &given)?;
        call.read = files.iter().flatten().chain(&names).chain(&image).cloned().collect();
        no_overwriting(&call.read, call.save.iter().chain(&call.out))?;
        if let Some(file) = names {
            let names = Input { bytes: read_file(&file)?, name: file };
            // Its records may be for any card.
            call.names = names.text(&VERSION_03, &Names::default())?.names;
        }
        if let Some(file) = image {
            call.image = Some(Input { bytes: read_file(&file)?, name: file });
        }
        for file in files {
            call.inputs.push(match file {
                None => standard_input(input)?,
                Some(file) => Input { bytes: read_file(&file)?, name: file },
            });
        }
        Ok(call)
    }

    /// Sorts what stands besides options into words and files; `None` is standard input.
    fn take(&mut self, command: &Command, given: &[&str]) -> Result<Vec<Option<String>>, Failure> {
        let mut files = Vec::new();
        let mut given = given.iter();
        for takes in command.takes {
            match (takes, given.next()) {
                (Takes::File(_), Some(&"-")) => files.push(None),
                (Takes::File(_), Some(file)) => files.push(Some(file.to_string())),
                (Takes::File(_), None) if command.takes.len() == 1 => files.push(None),
                (Takes::Word(_) | Takes::WordOrNone(_), Some(word)) => self.words.push(word.to_string()),
                (Takes::WordOrNone(_), None) => {}
                (Takes::File(name) | Takes::Word(name), None) => {
                    let usage = super::usage(command);
                    let words = format!("{name} is missing: cardtool {} {usage}", command.name);
                    return Err(Failure::bad_use(words));
                }
            }
        }
        if files.iter().filter(|file| file.is_none()).count() > 1 {
            return Err(Failure::bad_use("standard input can be read once, and '-' stands twice"));
        }
        match given.next() {
            None => Ok(files),
            Some(more) => {
                let usage = super::usage(command);
                Err(Failure::bad_use(format!("'{more}' is one too many: cardtool {} {usage}", command.name)))
            }
        }
    }

    /// Writes the files, none of which was read or is another of them, and what is printed where it goes: what is left
    /// for standard output.
    pub fn write(&self, files: &[(String, Vec<u8>)], printed: Vec<u8>) -> Result<Vec<u8>, Failure> {
        no_overwriting(&self.read, files.iter().map(|(file, _)| file).chain(&self.out))?;
        if let Some(directory) = &self.each {
            fs::create_dir_all(directory).map_err(|error| Failure::of_file(directory, error))?;
        }
        for (file, bytes) in files {
            write_file(file, bytes)?;
        }
        match &self.out {
            None => Ok(printed),
            Some(file) => write_file(file, &printed).map(|()| Vec::new()),
        }
    }

    /// The bytes of an image that was read: those of a dump, or those of the input. No dump begins as an image does.
    pub fn image_bytes(&self, input: &Input) -> Result<Vec<u8>, Trouble> {
        if self.raw || Layout::ALL.iter().any(|layout| input.bytes.starts_with(&layout.header)) {
            return Ok(input.bytes.clone());
        }
        let read = utf8(&input.bytes).and_then(hexadecimal::dump);
        read.map_err(|fault| input.no_text(fault, "of an image's own bytes say --raw"))
    }

    /// The tables of a sound image that was read.
    pub fn tables(&self, input: &Input) -> Result<(Tables, Vec<u8>), Trouble> {
        let image = self.image_bytes(input)?;
        Ok((self.sound(input, &image)?, image))
    }

    /// The tables of an image, or what keeps it from being sound.
    pub fn sound(&self, input: &Input, image: &[u8]) -> Result<Tables, Trouble> {
        Tables::of(image, &self.names).map_err(|faults| Trouble::Input(input.name.clone(), faults))
    }

    /// A text after the names that it uses.
    pub fn with_names(&self, text: String) -> String {
        self.names.used_in(&text).text() + &text
    }

    /// The bytes of an image as they are written: raw, or a dump.
    pub fn image_out(&self, image: &[u8]) -> Vec<u8> {
        match Image::new(image).filter(|_| !self.raw) {
            None => image.to_vec(),
            Some(image) => dump::image(image, &self.names).into_bytes(),
        }
    }

    /// An image that records are judged on, and its card.
    pub fn judgeable(&self, input: &Input) -> Result<(&'static Layout, Vec<u8>), Trouble> {
        let image = self.image_bytes(input)?;
        let card = unsound::sized(&image).map_err(|fault| input.bad(fault))?.layout;
        match card.judged() {
            true => Ok((card, image)),
            false => Err(input.bad(Fault::byte(2, OLD))),
        }
    }

    /// The card that is meant where no image says it.
    pub fn card(&self) -> &'static Layout {
        match self.large {
            true => &VERSION_03,
            false => &VERSION_02,
        }
    }
}

impl Input {
    pub fn bad(&self, fault: Fault) -> Trouble {
        Trouble::Input(self.name.clone(), vec![fault])
    }

    /// A fault of what should be a text or hexadecimal. With zeros it is neither, and it is said what to do.
    pub fn no_text(&self, fault: Fault, hint: &str) -> Trouble {
        match self.bytes.contains(&0) {
            true => self.bad(Fault { words: format!("{}; {hint}", fault.words), ..fault }),
            false => self.bad(fault),
        }
    }

    /// The input as a text of records for a card, in which these names are given already.
    pub fn text(&self, card: &'static Layout, names: &Names) -> Result<Text, Trouble> {
        utf8(&self.bytes).and_then(|text| record_text::read(card, text, names)).map_err(|fault| self.bad(fault))
    }
}

/// A word of the command line, for what reads words of texts. Its faults have no place, and names come from elsewhere.
pub fn on_command_line<T>(text: &str, read: impl FnOnce(Word) -> Result<T, Fault>) -> Result<T, Trouble> {
    let word = Word { text, place: Place { line: 1, column: 1 } };
    read(word).map_err(|fault| {
        Failure::bad_use(fault.words.replace("a name given above", "a name that --names FILE gives")).into()
    })
}

fn form(value: Option<&str>) -> Result<Form, Failure> {
    match value {
        Some("text") => Ok(Form::Text),
        Some("hex") => Ok(Form::Hex),
        Some("raw") => Ok(Form::Raw),
        other => Err(Failure::bad_use(format!("--from {}: there are text, hex and raw", other.unwrap_or("")))),
    }
}

fn standard_input(input: &mut dyn Read) -> Result<Input, Failure> {
    let mut bytes = Vec::new();
    input.read_to_end(&mut bytes).map_err(|error| Failure::of_file("standard input", error))?;
    Ok(Input { name: "standard input".to_string(), bytes })
}

fn read_file(file: &str) -> Result<Vec<u8>, Failure> {
    fs::read(file).map_err(|error| Failure::of_file(file, error))
}

fn write_file(file: &str, bytes: &[u8]) -> Result<(), Failure> {
    fs::write(file, bytes).map_err(|error| Failure::of_file(file, error))
}

/// No file that is written is one that is read, or written twice.
fn no_overwriting<'a>(read: &[String], written: impl Iterator<Item = &'a String>) -> Result<(), Failure> {
    let inputs: Vec<Where> = read.iter().filter_map(|file| where_is(file)).collect();
    let mut outputs: Vec<Where> = Vec::new();
    for file in written {
        let Some(place) = where_is(file) else { continue };
        if inputs.contains(&place) {
            return Err(Failure::bad_use(format!(
                "{file}: it is read, and would be overwritten: write to another file"
            )));
        }
        if outputs.contains(&place) {
            return Err(Failure::bad_use(format!("{file}: two outputs would go there: write them to two files")));
        }
        outputs.push(place);
    }
    Ok(())
}

/// Where a file is, under whatever names: the file itself where it is there, else its directory and its name.
#[derive(PartialEq, Eq)]
enum Where {
    There(PathBuf, u64, u64),
    Absent(PathBuf),
}

/// `None` of what is no file, as a device, which can be written twice.
fn where_is(file: &str) -> Option<Where> {
    let path = Path::new(file);
    match fs::canonicalize(path).and_then(|real| Ok((fs::metadata(&real)?, real))) {
        Ok((found, _)) if !found.is_file() => None,
        Ok((found, real)) => Some(same_file(&found, real)),
        Err(_) => {
            let parent = path.parent().filter(|parent| !parent.as_os_str().is_empty()).unwrap_or(Path::new("."));
            let parent = fs::canonicalize(parent).unwrap_or(parent.to_path_buf());
            Some(Where::Absent(parent.join(path.file_name()?)))
        }
    }
}

/// Two names of one file, as hard links have, are one place.
#[cfg(unix)]
fn same_file(found: &fs::Metadata, _: PathBuf) -> Where {
    use std::os::unix::fs::MetadataExt;
    Where::There(PathBuf::new(), found.dev(), found.ino())
}

#[cfg(not(unix))]
fn same_file(_: &fs::Metadata, real: PathBuf) -> Where {
    Where::There(real, 0, 0)
}
