#!/usr/bin/env python3
"""Writes the numbers of the protocol, and the codes of C calls, into every file that lists them, from the tables in tables/: commands,
column types, flags, kinds of packets, and so on.

tables.py          writes the files
tables.py --check  fails if a file is out of date, and names it

A row of a table is a number, a name, the name in C (- for none), and the meaning; in tables/packet_kinds.txt the fields of a kind come
before its name in C. Files in crates/ are written whole, and say so in their first line. In include/mysql_packets.h only the enums are
written; the comments after their numbers are kept."""
import re
import sys
from pathlib import Path

TOP = Path(__file__).resolve().parent.parent
WIRE, SHOW, CONVERSATION, FOR_C = (TOP / f"crates/mysql_{name}" for name in ("wire", "show", "conversation", "packets_c"))
HEADER = TOP / "include/mysql_packets.h"
# the widest line of rt fmt, and of a comment
CODE, COMMENT = 100, 140

# ---- tables


class Row:
    def __init__(self, line, has_fields):
        number, self.name, *words = line.split(None, 4 if has_fields else 3)
        self.number = int(number, 0)
        self.fields = words.pop(0) if has_fields else "-"
        self.c, self.meaning = words


def table(name):
    """The rows of a table."""
    lines = (TOP / f"tables/{name}.txt").read_text().splitlines()
    return [Row(line, name == "packet_kinds") for line in lines if not line.startswith("#")]


def snake(name):
    return re.sub(r"(?<=[a-z0-9])(?=[A-Z])", "_", name).lower()


def wrapped(prefix, text):
    """A comment, in lines that are no wider than they may be."""
    lines, line = [], prefix
    for word in text.split():
        if len(f"{line} {word}") > COMMENT:
            lines.append(line)
            line = prefix
        line += f" {word}"
    return "\n".join([*lines, line])


# ---- codes of one byte


class Code:
    """An enum of one byte: its names in text, the docs of its module and of itself, and what its conversions say of a value."""

    def __init__(self, table, enum, module, docs, a_value, unknown, spec, example=(), inline="inline(always)"):
        self.table, self.enum, self.module, self.docs, self.a_value = table, enum, module, docs, a_value
        self.unknown, self.spec, self.example, self.inline = unknown, spec, example, inline
        self.stem = snake(enum)


CODES = [
    Code("commands", "ServerCommand", "The commands", "`enum_server_command`: the command that a client sends, in the first byte of its packet.", "a command",
         "Unknown command", "The commands", ["ServerCommand::try_from(first).ok()"]),
    Code("column_types", "ColumnType", "The types of columns and values", "`enum_field_types`: the type of a column or a value, in a byte.", "a type",
         "Unknown column type", "The types of columns and values", inline="inline"),
    Code("session_state_types", "SessionStateType", "The kinds of session state changes",
         "`enum_session_state_type`: which part of a session's state has changed, in a byte.", "a type", "Unknown session state type",
         "Which part of a session's state has changed"),
    Code("mariadb_bulk_indicators", "MariadbBulkIndicator", "How a value of a bulk request is given",
         "The indicator of `COM_STMT_BULK_EXECUTE`: how a value is given, in a byte.", "an indicator", "Unknown bulk indicator",
         "How a value in a bulk request is sent"),
]


def written_by(name):
    return f"written by tools/tables.py from tables/{name}.txt"


def code_source(it):
    """src/codes/NAME.rt: the enum, and its conversions."""
    rows, noun = table(it.table), it.a_value.split()[1]
    example = "".join(f"/// {line}\n" for line in ["", "```", *it.example, "```"]).replace("/// \n", "///\n") if it.example else ""
    variants = "".join(f"    /// {row.meaning}\n    {row.name} = {row.number},\n" for row in rows)
    cases = "".join(f"            {row.number} => Some({it.enum}::{row.name}),\n" for row in rows)
    unfold = [f"crate::specs::{it.enum}::{it.stem}_{part}" for part in ("code", "of")]
    return f"""//! {it.module}: {written_by(it.table)}.

ghost use Rattle.std.specs.Prelude.{{◌≡◌}};
ghost use Rattle.mysql_wire.specs.Codes.{{known_or}};
ghost use Rattle.mysql_wire.specs.{it.enum}.{{{it.stem}_code, {it.stem}_of, {it.stem}-back}};

use crate::constant_value::ConstValue;
use thiserror::Error;

/// {it.docs}
{example}#[derive(Clone, Copy, Debug, PartialEq, Eq, Hash)]
pub enum {it.enum} {{
{variants}}}

/// The error for a code that [`{it.enum}`] does not have.
#[derive(Clone, Copy, Debug, PartialEq, Eq, Hash, Error)]
#[error("{it.unknown}")]
pub struct Unknown{it.enum}(pub u8);

impl ConstValue<u8> for {it.enum} {{
    ghost code = {{ {it.stem}_code }};

    ghost of_code = {{ {it.stem}_of }};

    const MESSAGE: &'static str = "{it.unknown}";

    #[inline(always)]
    #[tactic(auto, unfolding({unfold[0]}))]
    fn code(&self) -> u8 {{
        *self as u8
    }}

    #[{it.inline}]
    #[tactic(auto, unfolding({unfold[0]}, {unfold[1]}))]
    fn from_code(number: u8) -> Option<{it.enum}> {{
        match number {{
{cases}            _ => None,
        }}
    }}

    ghost read_back = {{ {it.stem}-back }};
}}

/// Converts a code to its {noun}; an unknown code is returned as the error.
impl TryFrom<u8> for {it.enum} {{
    type Error = Unknown{it.enum};

    ghost try_from_gives = {{ λ code r. r ≡ known_or (record {{ 0 = code }}) ({it.stem}_of code) }};

    #[inline(always)]
    fn try_from(code: u8) -> Result<{it.enum}, Unknown{it.enum}> {{
        {it.enum}::from_code(code).ok_or(Unknown{it.enum}(code))
    }}
}}

/// Converts to the code.
impl From<{it.enum}> for u8 {{
    ghost from_gives = {{ λ value code. code ≡ {it.stem}_code value }};

    #[inline(always)]
    fn from(value: {it.enum}) -> u8 {{
        value.code()
    }}
}}
"""


def code_spec(it):
    """specs/NAME.antt: the codes, their list, and that each is read back."""
    rows, noun = table(it.table), it.a_value.split()[1]
    # the codes of commands have names, which other definitions use
    is_named = it.table == "commands"
    names = f"use Rattle.mysql_wire.specs.CommandCodes.{{{', '.join(row.name for row in rows)}}}\n" if is_named else ""
    codes = "".join(f"{it.stem}_code variant.{row.name} = {row.name if is_named else row.number}\n" for row in rows)
    listed = "\n    ∷ ".join([f"variant.{row.name}" for row in rows] + ["[]"])
    backs = "".join(f"{it.stem}-back variant.{row.name} = refl\n" for row in rows)
    declared = f"Rattle.mysql_wire.specs.declared.codes.{it.stem}.{it.enum}"
    return f"""-- {it.spec}: {written_by(it.table)}.
use Rattle.std.specs.Prelude.{{◌≡◌, ℕ, List, [], ◌∷◌, Option, Some, refl}}
use {declared}.{{{it.enum}}}
use {declared}.TheVariants as variant
use Rattle.mysql_wire.specs.declared.constant_value.Const.{{Const}}
use Rattle.mysql_wire.specs.Codes.{{with_code, code-again}}
{names}use Rattle.mysql_wire.specs.ConstantValue.{{coded}}
use Rattle.mysql_wire.specs.Form.{{Form, number}}
use Rattle.mysql_wire.specs.Spelling.{{IsSpelling}}
use Rattle.mysql_wire.specs.Writing.{{le_bytes}}

unfoldable pub {it.stem}_code : {it.enum} → ℕ
{codes}
abbrev pub {it.stem}s : List {it.enum}
{it.stem}s =
    {listed}

-- the {noun} with this code
unfoldable pub {it.stem}_of : ℕ → Option {it.enum}
{it.stem}_of n = with_code {it.stem}_code {it.stem}s n

pub {it.stem}-back : (value : {it.enum}) → {it.stem}_of ({it.stem}_code value) ≡ Some value
unfolding {it.stem}_code {it.stem}_of
{backs}
-- a byte that is {it.a_value}'s code
abbrev pub {it.stem} : Form (Const {it.enum} ℕ)
{it.stem} = coded {it.stem}_of (number 1)

-- {it.a_value} is read back
pub {it.stem}-again : (v : Const {it.enum} ℕ) → IsSpelling {it.stem} v (le_bytes 1 ({it.stem}_code v.0))
unfolding {it.stem}_code {it.stem}_of
{it.stem}-again v = code-again {it.stem}_code {it.stem}s refl {it.stem}-back v

pub ruleset {it.stem}_again = ({it.stem}-again)
"""


def command_codes():
    """specs/CommandCodes.antt: the first bytes of commands, by name."""
    codes = "".join(f"\nabbrev pub {row.name} : ℕ\n{row.name} = 0x{row.number:02x}\n" for row in table("commands"))
    return f"-- The first bytes of commands: {written_by('commands')}.\nuse Rattle.std.specs.Prelude.{{ℕ}}\n{codes}"


def command_bytes():
    """src/codes/command_code.rt: the first bytes of commands, as constants."""
    constants = "".join(f"\n/// {row.meaning}\npub const {row.name}: u8 = 0x{row.number:02x};\n" for row in table("commands"))
    return f"""//! The first bytes of commands, for patterns and types: {written_by("commands")}.
{constants}"""


def command_names():
    """mysql_show: the names of commands."""
    rows, cases = table("commands"), ""
    for row in rows:
        case = f'        ServerCommand::{row.name} => "{row.name}",\n'
        cases += case if len(case) <= CODE + 1 else case.replace(" => ", " =>\n            ")
    source = f"""//! The names of commands: {written_by("commands")}.

ghost use Rattle.std.specs.Prelude.{{◌≡◌}};
ghost use Rattle.mysql_show.specs.CommandName.{{name_of}};

use mysql_wire::ServerCommand;

/// The name of a command, as in the protocol's documentation.
pub fn command_name(command: ServerCommand) -> &'static str
    ensures {{ result.now ≡ name_of command }}
{{
    match command {{
{cases}    }}
}}
"""
    names = "".join(f'name_of command.{row.name} = codes "{row.name}"\n' for row in rows)
    spec = f"""-- The names of commands: {written_by("commands")}.
use Rattle.std.specs.Prelude.{{ℕ, List, codes}}
use Rattle.mysql_wire.specs.declared.codes.server_command.ServerCommand.{{ServerCommand}}
use Rattle.mysql_wire.specs.declared.codes.server_command.ServerCommand.TheVariants as command

abbrev pub name_of : ServerCommand → List ℕ
{names}"""
    return source, spec


# ---- flag words


class Flags:
    """A flag word: its type, the type of its names, its width, its masks in a definition, and the docs of its module and of itself."""

    def __init__(self, table, type, names, bits, mask, module, docs):
        self.table, self.type, self.names, self.bits, self.mask, self.module, self.docs = table, type, names, bits, mask, module, docs


FLAGS = [
    Flags("binlog_dump_flags", "BinlogDumpFlags", "BinlogDumpNames", 16, "d", "How a binary log is sent",
          "`COM_BINLOG_DUMP`'s flags: how the binary log is sent, in two bytes."),
    Flags("capability_flags", "CapabilityFlags", "CapabilityNames", 32, "#011_x", "The capabilities of a client and a server",
          "`Protocol::CapabilityFlags`: what a client and a server can do, in four bytes."),
    Flags("column_flags", "ColumnFlags", "ColumnFlagNames", 16, "#06x", "The attributes of a column",
          "`Protocol::ColumnDefinition41`'s flags: the attributes of a column, in two bytes."),
    Flags("cursor_type", "CursorType", "CursorNames", 8, "d", "Which cursor a statement opens",
          "`COM_STMT_EXECUTE`'s flags: which cursor the statement opens, in a byte."),
    Flags("mariadb_capabilities", "MariadbCapabilities", "MariadbCapabilityNames", 32, "#04x",
          "The extended capabilities of a MariaDB client and server",
          "The extended capabilities of MariaDB: what a client and a server can do, in four bytes."),
    Flags("status_flags", "StatusFlags", "StatusNames", 16, "#06x", "The state of a session",
          "`SERVER_STATUS_flags_enum`: the state of a session, in two bytes."),
    Flags("stmt_bulk_execute_flags", "StmtBulkExecuteFlags", "StmtBulkExecuteNames", 16, "d", "The flags of a bulk execution",
          "The flags of `COM_STMT_BULK_EXECUTE`, in two bytes."),
    Flags("stmt_execute_param_flags", "StmtExecuteParamFlags", "StmtExecuteParamNames", 8, "d", "The flags of one parameter of a statement",
          "The flags of one parameter of a statement, in the byte after its type."),
    Flags("stmt_execute_params_flags", "StmtExecuteParamsFlags", "StmtExecuteParamsNames", 8, "d", "How the parameters of a statement are sent",
          "`COM_STMT_EXECUTE`'s `new_params_bind_flag`: how the parameters are sent, in a byte."),
]


def flags_source(it):
    """src/flags/NAME.rt: the constants, and their names."""
    rows, constants = table(it.table), ""
    for row in rows:
        bits = f"1 << {row.number.bit_length() - 1}" if row.number else "0"
        line = f"    pub const {row.name}: {it.type} = FlagWord({bits}, PhantomData);"
        if len(line) > CODE:
            line = f"    pub const {row.name}: {it.type} = FlagWord(\n        {bits},\n        PhantomData,\n    );"
        constants += f"    /// {row.meaning}\n{line}\n\n"
    names = ", ".join(row.name for row in rows)
    pairs = " ∷ ".join(f'(codes "{row.name}", {row.name})' for row in rows)
    return f"""//! {it.module}: {written_by(it.table)}.

ghost use Rattle.std.specs.Prelude.{{[], ◌∷◌, codes}};
ghost use Rattle.mysql_wire.specs.FlagMasks.{{{names}}};

use crate::flags::{{FlagNames, FlagWord, named_flags}};
use bitflags::Flag;
use std::marker::PhantomData;

/// The names of [`{it.type}`].
pub struct {it.names};

/// {it.docs}
pub type {it.type} = FlagWord<{it.names}, u{it.bits}>;

impl FlagWord<{it.names}, u{it.bits}> {{
{constants}    const FLAGS: &'static [Flag<{it.type}>] =
        named_flags!({it.type}: {names});
}}

impl FlagNames<u{it.bits}> for {it.names} {{
    const NAME: &'static str = "{it.type}";

    ghost table = {{ {pairs} ∷ [] }};

    fn flags<'a>() -> &'a [Flag<{it.type}>] {{
        {it.type}::FLAGS
    }}
}}
"""


def masks():
    """specs/FlagMasks.antt: the flag words, and the masks by name."""
    wire = "Rattle.mysql_wire.specs"
    text = "-- The flag words, and the masks of the flags, each named like its constant in src/flags: written by tools/tables.py from the tables of the\n"
    text += f"-- flags in tables/.\nuse Rattle.std.specs.Prelude.{{ℕ}}\nuse {wire}.declared.flags.FlagWord.{{FlagWord}}\n"
    text += "".join(f"use {wire}.declared.flags.{it.table}.{it.names}.{{{it.names}}}\n" for it in FLAGS)
    for it in FLAGS:
        text += f"\nabbrev pub {it.type} : Type 0\n{it.type} = FlagWord {it.names} ℕ\n"
        text += "".join(f"\nabbrev pub {row.name} : ℕ\n{row.name} = {row.number:{it.mask}}\n" for row in table(it.table))
    return text


# ---- kinds of packets


def kinds():
    """mysql_conversation: the kinds of packets without their fields, and their names."""
    rows = table("packet_kinds")
    tag = "PacketKindTag"
    # the variant of the kind, as a pattern of each language: a field with a capital letter is a constant
    rust, antt = {}, {}
    for row in rows:
        fields = [] if row.fields == "-" else row.fields.split(",")
        variant = "Row" if fields and fields[0][0].isupper() else row.name
        rust[row.name] = variant + (f"({', '.join(f'RowFormat::{it}' if it[0].isupper() else '_' for it in fields)})" if fields else "")
        antt[row.name] = f"(kind.{' '.join([variant, *fields])})" if fields else f"kind.{variant}"
    lines = {
        "variants": "".join(f"{wrapped('    ///', row.meaning)}\n    {row.name} = {row.number},\n" for row in rows),
        "all": "".join(f"        {tag}::{row.name},\n" for row in rows),
        "texts": "".join(f'            {tag}::{row.name} => "{snake(row.name)}",\n' for row in rows),
        "names": "".join(f"            PacketKind::{rust[row.name]} => {tag}::{row.name},\n" for row in rows),
    }
    source = f"""//! Kinds of packets without data: {written_by("packet_kinds")}.

ghost use Rattle.std.specs.Prelude.{{◌≡◌}};
ghost use Rattle.mysql_conversation.specs.PacketKindTag as spec;

use crate::packet_kind::{{PacketKind, RowFormat}};

/// A kind of packet without its data: a [`PacketKind`], with separate variants for text rows and binary rows.
///
/// ```
/// if !connection.may_receive(PacketKindTag::Column) {{
///     break;
/// }}
/// ```
#[derive(Clone, Copy, Debug, PartialEq, Eq)]
pub enum {tag} {{
{lines["variants"]}}}

impl {tag} {{
    /// All kinds, in order.
    pub const ALL: [{tag}; {len(rows)}] = [
{lines["all"]}    ];

    /// Returns the position in [`ALL`](Self::ALL).
    #[inline]
    pub fn index(self) -> u8
        ensures value {{ result ≡ spec.index self }}
    {{
        self as u8
    }}

    /// Returns the name in lower case with underscores: `text_row`.
    pub fn as_str(self) -> &'static str
        ensures value {{ result.now ≡ spec.text_of self }}
    {{
        match self {{
{lines["texts"]}        }}
    }}
}}

impl PacketKind {{
    /// Returns the kind without its data.
    pub fn name(self) -> {tag}
        ensures value {{ result ≡ spec.name_of self }}
    {{
        match self {{
{lines["names"]}        }}
    }}
}}
"""
    name_of = "".join(f"name_of {antt[row.name]} = name.{row.name}\n" for row in rows)
    text_of = "".join(f'text_of name.{row.name} = codes "{snake(row.name)}"\n' for row in rows)
    index = "".join(f"index name.{row.name} = {row.number}\n" for row in rows)
    spec = f"""-- The names of packet kinds: {written_by("packet_kinds")}.
use Rattle.std.specs.Prelude.{{ℕ, List, codes, Bool, false, ◌==◌, ◌||◌, [], ◌∷◌}}
use Rattle.mysql_conversation.specs.declared.packet_kind.RowFormat.TheVariants.{{Text, Binary}}
use Rattle.mysql_conversation.specs.declared.packet_kind.PacketKind.{{PacketKind}}
use Rattle.mysql_conversation.specs.declared.packet_kind.PacketKind.TheVariants as kind
use Rattle.mysql_conversation.specs.declared.packet_kind_tag.PacketKindTag.{{PacketKindTag}}
use Rattle.mysql_conversation.specs.declared.packet_kind_tag.PacketKindTag.TheVariants as name

-- a kind without its fields
abbrev pub name_of : PacketKind → PacketKindTag
{name_of}
-- the text of a name
abbrev pub text_of : PacketKindTag → List ℕ
{text_of}
-- the names, by number
abbrev pub index : PacketKindTag → ℕ
{index}
-- the name is in the list
abbrev pub is_in : PacketKindTag → List PacketKindTag → Bool
is_in n [] = false
is_in n (x ∷ xs) = index n == index x || is_in n xs
"""
    return source, spec


# ---- codes of calls


def call_codes():
    """mysql_packets_c: what calls return."""
    constants = "".join(f"\n/// {row.meaning}\npub(crate) const {row.name}: u32 = {row.number};\n" for row in table("c_codes"))
    return f"""//! What calls return: {written_by("c_codes")}.
{constants}"""


# ---- the header

# the enums of the header, and their tables
ENUMS = {
    "myp_code": "c_codes", "myp_packet_kind": "packet_kinds", "myp_session_track": "session_state_types", "myp_cursor": "cursor_type",
    "myp_bulk_flag": "stmt_bulk_execute_flags", "myp_indicator": "mariadb_bulk_indicators", "myp_type": "column_types",
    "myp_column_flag": "column_flags", "myp_com": "commands", "myp_client_flag": "capability_flags",
    "myp_mariadb_client_flag": "mariadb_capabilities", "myp_server_flag": "status_flags", "myp_dump_flag": "binlog_dump_flags",
}


def header():
    """include/mysql_packets.h, with the enums of the tables."""
    text = HEADER.read_text()
    for enum, name in ENUMS.items():
        found = re.search(rf"(?<=^enum {enum} \{{\n).*?(?=^\}};)", text, re.M | re.S)
        # the comments after the numbers
        comments = dict(re.findall(r"^    (MYP_\w+)(?: = [^,/\n]*?)?,?( */\*.*\*/)?$", found[0], re.M))
        rows = [row for row in table(name) if row.c != "-"]
        lines = []
        for row in rows:
            number = str(row.number) if row.number < 1 << 16 else f"1 << {row.number.bit_length() - 1}"
            # kinds are counted from 0
            number = "" if name == "packet_kinds" and row.number else f" = {number}"
            comma = "" if row is rows[-1] else ","
            lines.append(f"    {row.c}{number}{comma}{comments.get(row.c, '')}\n")
        text = text[: found.start()] + "".join(lines) + text[found.end() :]
    return text


def files():
    """The path of each file, and what it has to be."""
    for it in CODES:
        yield WIRE / f"src/codes/{it.stem}.rt", code_source(it)
        yield WIRE / f"specs/{it.enum}.antt", code_spec(it)
    yield WIRE / "specs/CommandCodes.antt", command_codes()
    yield WIRE / "src/codes/command_code.rt", command_bytes()
    yield from zip((SHOW / "src/names.rt", SHOW / "specs/CommandName.antt"), command_names())
    for it in FLAGS:
        yield WIRE / f"src/flags/{it.table}.rt", flags_source(it)
    yield WIRE / "specs/FlagMasks.antt", masks()
    yield from zip((CONVERSATION / "src/packet_kind_tag.rt", CONVERSATION / "specs/PacketKindTag.antt"), kinds())
    yield FOR_C / "src/call_codes.rt", call_codes()
    yield HEADER, header()


def main(*words):
    late = [(path, text) for path, text in files() if not path.exists() or path.read_text() != text]
    for path, text in late:
        if words == ("--check",):
            print(f"{path.relative_to(TOP)} is out of date: run tools/tables.py")
        else:
            path.write_text(text)
            print(path.relative_to(TOP))
    return 1 if late and words == ("--check",) else 0


if __name__ == "__main__":
    sys.exit(main(*sys.argv[1:]))
