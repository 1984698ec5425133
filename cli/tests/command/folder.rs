//! Runs the command in a folder of the test's own.

use std::fs;
use std::io::Write;
use std::path::PathBuf;
use std::process::{Command, Output, Stdio};

/// A folder for the files of one test.
pub struct Folder(PathBuf);

/// A test that passes leaves nothing behind: the gate takes no link in the tree. One that fails leaves its files to be looked at.
impl Drop for Folder {
    fn drop(&mut self) {
        if !std::thread::panicking() {
            let _ = fs::remove_dir_all(&self.0);
        }
    }
}

impl Folder {
    /// An empty one, whatever an earlier run left there.
    pub fn new(test: &str) -> Self {
        let folder = PathBuf::from(env!("CARGO_TARGET_TMPDIR")).join(test);
        let _ = fs::remove_dir_all(&folder);
        fs::create_dir_all(&folder).expect("a folder for the test");
        Folder(folder)
    }

    pub fn write(&self, file: &str, content: impl AsRef<[u8]>) {
        fs::write(self.0.join(file), content).expect("a file for the test");
    }

    pub fn read(&self, file: &str) -> Vec<u8> {
        fs::read(self.0.join(file)).expect("a file of the test")
    }

    pub fn read_text(&self, file: &str) -> String {
        String::from_utf8(self.read(file)).expect("text")
    }

    /// The names of all files there that hold this text.
    pub fn names_with(&self, part: &str) -> Vec<String> {
        let files = fs::read_dir(&self.0).expect("the folder of the test");
        let name = |file: fs::DirEntry| file.file_name().into_string().expect("a name");
        let names = files.map(|file| name(file.expect("a file")));
        names.filter(|name| name.contains(part)).collect()
    }

    /// Makes a link to a file.
    pub fn link(&self, file: &str, link: &str) {
        std::os::unix::fs::symlink(file, self.0.join(link)).expect("a link for the test");
    }

    fn command(&self, words: &str) -> Command {
        let mut command = Command::new(env!("CARGO_BIN_EXE_beetle"));
        command.args(words.split(' ')).current_dir(&self.0);
        command
    }

    /// Runs `beetle` with these words, in the folder.
    pub fn beetle(&self, words: &str) -> Said {
        Said::from(self.command(words).output().expect("the command runs"))
    }

    /// The same, with these bytes as its standard input.
    pub fn beetle_given(&self, words: &str, input: &[u8]) -> Said {
        let mut command = self.command(words);
        let pipes = command.stdin(Stdio::piped()).stdout(Stdio::piped());
        let mut begun = pipes.stderr(Stdio::piped()).spawn().expect("it begins");
        let mut pipe = begun.stdin.take().expect("a pipe");
        pipe.write_all(input).expect("it is read");
        drop(pipe);
        Said::from(begun.wait_with_output().expect("the command runs"))
    }

    /// As `beetle`, which has to end with status 0: what it prints.
    pub fn done(&self, words: &str) -> String {
        let said = self.beetle(words);
        assert_eq!((said.status, said.error.as_str()), (0, ""), "{words}");
        said.output
    }

    /// A command line is wrong: what is said first, with nothing printed.
    pub fn wrong(&self, words: &str, error: &str) {
        let said = self.beetle(words);
        assert_eq!((said.status, said.output.as_str()), (2, ""), "{words}");
        let start = format!("beetle: {error}\n");
        assert!(said.error.starts_with(&start), "{words}: {said:?}");
    }

    /// Assembles a text to `rule.lst` and saves it as `rule.mod`.
    pub fn rule(&self, text: &str) {
        self.write("rule.txt", text);
        self.done("assemble rule.txt -o rule.lst");
        self.done("save rule.lst -o rule.mod");
    }
}

/// The cells of forms as bytes.
pub fn cells(order: &str, cells: &[i64]) -> Vec<u8> {
    let bytes = |cell: &i64| match order {
        "0" => (*cell as u32).to_le_bytes(),
        _ => (*cell as u32).to_be_bytes(),
    };
    cells.iter().flat_map(bytes).collect()
}

/// What a command said.
#[derive(Debug)]
pub struct Said {
    pub status: i32,
    pub output: String,
    pub error: String,
}

impl From<Output> for Said {
    fn from(output: Output) -> Self {
        let text = |bytes| String::from_utf8(bytes).expect("text");
        Said {
            status: output.status.code().expect("an exit status"),
            output: text(output.stdout),
            error: text(output.stderr),
        }
    }
}
