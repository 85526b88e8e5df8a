//! The commands. An option is a line of its command's table.

use crate::cli::command::{Command, Files, Opt, Takes};
use crate::cli::{clean, help, models, sheets, texts, Program};

const FORCE: Opt = Opt::flag("--force", "Overwrite what is there.");
pub const JSON: Opt = Opt::flag("--json", "The answer as JSON: an object on a line for each file.");
const CSV: Opt = Opt::flag("--csv", "Write frames.csv too: a row for each frame.");
const LAG: Opt = Opt::of(
    "--lag",
    Takes::OneOf(&["crate", "own"]),
    "Whose pitch finder: the Rust crate's, as where none is named, which gives what nnnoiseless gives but for the last \
     bits; or our own, with transforms as plain sums, which takes several times as long.",
);

const SPLIT: Opt = Opt::of(
    "--split",
    Takes::Text("SECONDS"),
    "Cut into dictations, DIR/2026-11-16/093012-left.wav and so on: one is over after so many seconds without a voice.",
);
const START: Opt =
    Opt::of("--start", Takes::Text("TIME"), "When the first sample was recorded, as 2026-11-16T09:30:12. For --split.");

/// The box.
pub const BOX: Program = Program { name: "", commands: COMMANDS, help: help::help_of_box, asks: "what shall be done?" };

pub const COMMANDS: &[Command] = &[
    Command {
        name: "clean",
        what: "Clean recordings of one bench, of both, of many, or a stream.",
        usage: &[
            "--left L.wav --right R.wav --out DIR",
            "--both STEREO.wav --out DIR",
            "FILE.. [--side left|right] --out DIR",
            "- --out DIR",
            "--left - [--raw] --out DIR",
            "- --split SECONDS [--start TIME] --out DIR",
        ],
        files: Files::from(0, "FILE"),
        options: &[
            Opt::of(
                "--left",
                Takes::There("FILE"),
                "The left bench's recording; alone, that bench's alone. - is standard input.",
            ),
            Opt::of("--right", Takes::There("FILE"), "The right bench's."),
            Opt::of("--both", Takes::There("FILE"), "Both in one: the left channel is the left bench."),
            Opt::of("--side", Takes::OneOf(&["left", "right"]), "The side of the files whose name says none."),
            Opt::flag(
                "--raw",
                "Standard input has no header: 48,000 samples a second, 16 bits, little end first, \
                 left and right in turn.",
            ),
            Opt::of(
                "--channels",
                Takes::OneOf(&["1", "2"]),
                "The channels of --raw: 2 with -, 1 with --left - or --right -.",
            ),
            Opt::flag("--to-the-end", "Clean all that a file holds, even if its header announces less."),
            Opt::of(
                "--out",
                Takes::Place("DIR"),
                "Where the files are written. Of several FILEs each has a folder there.",
            ),
            SPLIT,
            START,
            Opt::flag("--keep-before", "Keep each dictation as it was before cleaning, too. For --split."),
            Opt::of("--name", Takes::Text("NAME"), "Call what is written NAME-left.wav and so on."),
            Opt::of(
                "--model",
                Takes::There("FILE"),
                "The model: .rnn, .rnnn or rnn_data.c. The house model where none is named.",
            ),
            Opt::flag("--or-house", "Clean with the house model if the library refuses the one that --model names."),
            LAG,
            Opt::of("--jobs", Takes::Text("N"), "Clean N of several FILEs at a time; else as many as there are cores."),
            FORCE,
            Opt::flag(
                "--anyway",
                "Clean a recording although its name or its seal says the other side, or both benches' are identical.",
            ),
            CSV,
            Opt::flag("-q", "Print errors only."),
            JSON,
        ],
        about: "\
Recordings of 48 kHz, 16-bit or 24-bit PCM or 32-bit float. Writes left.wav and right.wav, benches.svg and index.html, a
page with all of it, into DIR. Each recording is sealed: its side is before its audio, and after it with each frame's
number. A recording whose name, seal or side sheet says the other bench, one file for both benches, and two recordings
that are identical are refused before anything is written.

FILE.. are recordings of one bench each, every one with a folder of its own in DIR that is called like the file. Its \
side
is what its name says: left or right as a word, or L or R as the last word (patientR.wav, p-r-2.wav), and if it says \
none,
what its folder's name says; or what --side says.

- is a stereo WAV stream on standard input, of any length. A WAV file can hold 12 hours and 19 minutes: then a recording
goes on in left-2.wav, with the next frame. All recordings are cleaned as they are read, and written as they are \
cleaned: it takes no more memory for ten hours
than for a minute. On their way the files are called left.wav.part and so on, and the records of the side sheets lie in
left.wav.sheet and right.wav.sheet; at the end all is closed and put in its place. Ctrl-C, TERM or HUP is the end of
what is read: what came is closed and kept. A second one ends the program at once.

With --split each bench's recording is cut into dictations. One is over after so many seconds without a voice at that
bench, and the next one begins half a second before its first voice. Each is a sealed recording of its own, called by \
the
time at which it began, and told as soon as it is closed. No sample is lost: silence is at the end of the dictation \
before
it. index.html lists all dictations in DIR. The time is the clock's for a stream, and for a file its last change less \
its
length; --start says another.

What is wrong with one bench ends that bench there and leaves the other as it is. A recording that breaks off is cleaned
as far as it goes. Both are told. Where the files of a stream can't be written, as on a full disk, or the power fails,
they stay as they are, and box mend DIR closes them.",
        examples: &[
            "box clean --left l.wav --right r.wav --out monday",
            "box clean *.wav --out monday",
            "arecord -f S16_LE -c 2 -r 48000 -t wav | box clean - --out monday",
            "arecord -f S16_LE -c 2 -r 48000 -t wav | box clean - --split 8 --out monday",
        ],
        run: clean::run_clean,
    },
    Command {
        name: "side",
        what: "Tell whose recording a file is.",
        usage: &["FILE..", "DIR.."],
        files: Files::from(1, "FILE or DIR"),
        options: &[JSON],
        about: "\
Of a recording that is, from its first byte to its last, as the box writes it: its side, how many frames it has and how
many of them were heard. Of any other file no side is told, but the reason, with an exit status of its own: 3 no
recording; 4 one of an earlier version of the box, or a side sheet without a seal; 5 a recording that is not as the box
wrote it; 6 a name or a folder that says another side. Of several files the highest. - is a recording on standard input,
which is judged as it arrives.

Of a folder all recordings in it and in the folders of its days are told, by time, and which frames of a bench are \
missing
between them: status 2.",
        examples: &["box side monday/left.wav monday/right.wav", "box side monday", "box side --json *.wav"],
        run: sheets::run_side,
    },
    Command {
        name: "mend",
        what: "Close what a crash left, or mend a recording that was cut or damaged.",
        usage: &["DIR", "FILE --out FILE2 [--as left|right]"],
        files: Files::one("DIR or FILE"),
        options: &[
            Opt::of("--out", Takes::Place("FILE2"), "Where the mended recording is written; it must not exist."),
            Opt::of("--as", Takes::OneOf(&["left", "right"]), "The side of a recording in which no seal says it."),
            JSON,
        ],
        about: "\
Of a folder: what a run left unfinished, since the power failed or the disk was full. Each recording is closed with all
of its audio, and put in its place, or where that is taken under the next free name. If a recording, its records and its
name disagree about the side, nothing is closed. Dictations in the folders of its days are closed likewise.

Of a file: a recording that was cut or damaged, or that an earlier version of the box wrote. Its side is what its seals
say; if none is whole, --as says it, and the answer says that you did. All of its audio is kept. Records that were lost
are written again, and their frames marked as heard. FILE2 gets its name only if box side accepts it.",
        examples: &["box mend monday", "box mend torn.wav --out left.wav"],
        run: sheets::run_mend,
    },
    Command {
        name: "demo",
        what: "Two dictations over a grinder, cleaned with the house model.",
        usage: &["DIR"],
        files: Files::place("DIR"),
        options: &[LAG, FORCE, CSV],
        about: "They come with the program. Writes what clean writes, and the recordings before cleaning too.",
        examples: &["box demo out"],
        run: clean::run_demo,
    },
    Command {
        name: "import",
        what: "A model as a .rnn, from RNNoise's own forms.",
        usage: &["FILE --out M.rnn"],
        files: Files::one("FILE"),
        options: &[Opt::of("--out", Takes::Place("M.rnn"), "Where the model is written."), FORCE],
        about: "\
From RNNoise's rnn_data.c or from rnnoise-nu's text form (.rnnn), which are told apart by their first words. --model and
unpack take both as they are, too. What is wrong is said by layer, array and line, and then nothing is written.",
        examples: &["box import rnn_data.c --out rnnoise.rnn"],
        run: models::run_import,
    },
    Command {
        name: "export",
        what: "A model in the text form that ffmpeg's filter arnndn reads.",
        usage: &["M.rnn --as rnnn --out FILE"],
        files: Files::one("M.rnn"),
        options: &[
            Opt::of("--as", Takes::OneOf(&["rnnn"]), "The form."),
            Opt::of("--out", Takes::Place("FILE"), "Where the text is written."),
            FORCE,
        ],
        about: "",
        examples: &["box export house.rnn --as rnnn --out house.rnnn"],
        run: models::run_export,
    },
    Command {
        name: "pack",
        what: "A model from loose arrays.",
        usage: &["--layers FOLDER --out M.rnn"],
        files: Files::NONE,
        options: &[
            Opt::of("--layers", Takes::There("FOLDER"), "Where the arrays are."),
            Opt::of("--out", Takes::Place("M.rnn"), "Where the model is written."),
            FORCE,
        ],
        about: "\
FOLDER has layers.txt, a line for each layer with its name, inputs, neurons and activation, and a file of signed bytes
for each array (input_dense.weights, input_dense.bias, vad_gru.recurrent ...).",
        examples: &["box pack --layers layers --out mine.rnn"],
        run: models::run_pack,
    },
    Command {
        name: "unpack",
        what: "A model taken apart into loose arrays.",
        usage: &["M.rnn --out FOLDER"],
        files: Files::one("M.rnn"),
        options: &[Opt::of("--out", Takes::Place("FOLDER"), "Where the arrays are written."), FORCE],
        about: "The other way round than pack.",
        examples: &["box unpack house.rnn --out layers"],
        run: models::run_unpack,
    },
    Command {
        name: "man",
        what: "The man page, as `box install` puts it in its place.",
        usage: &[""],
        files: Files::NONE,
        options: &[],
        about: "",
        examples: &[],
        run: texts::run_man,
    },
    Command {
        name: "completion",
        what: "The completion for bash.",
        usage: &[""],
        files: Files::NONE,
        options: &[],
        about: "",
        examples: &[],
        run: texts::run_completion,
    },
];
