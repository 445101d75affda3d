"""The words of specs/ that the clauses of public calls cite, and the ghost members of public types and traits: who names mysql_packets
alone writes contracts with them, so each module that has one is passed on by mysql_packets/specs/Lib.antt."""
import re

from lines import TOP

# a function with its clauses: each is one line, or goes on in lines that stand further in
CALL = r"(?:final )?(?:const )?fn (\w+)[^{;]*?(?=\n *(?:requires|ensures))((?:\n *(?:requires|ensures|//)[^\n]*(?:\n {8,}[^\n]*)*)*)"
PUBLIC, MEMBER_CALL = re.compile(rf"^ *pub {CALL}", re.M), re.compile(rf"^    {CALL}", re.M)
# (each function of a public trait is public)
TRAIT = re.compile(r"^pub trait .*?^}", re.M | re.S)
# what a type is in a clause, and the contracts of its reading, its writing and its iteration
MEMBER = re.compile(r"^    ghost (\w+) = \{(.*?)\};", re.M | re.S)
IMPORT = re.compile(r"ghost use Rattle\.(mysql_\w+)\.specs\.([\w.]+?)(?:\.\{([^}]*)\}| as (\w+));")
MEMBERS = {"Value", "form", "bytes", "type_of", "unsigned", "next_gives"}


def imported(source):
    """The library and the module of each word that a file's ghost items import, and of each name of a module."""
    words, modules = {}, {}
    for library, module, names, alias in IMPORT.findall(source):
        if alias:
            modules[alias] = library, module
        for name in filter(None, re.split(r",\s*", names.strip())):
            words[name.split(" as ")[-1].strip()] = library, module
    return words, modules


def cited(source):
    """What the public clauses of a file cite: where, the word, its library and its module."""
    words, modules = imported(source)
    clauses = PUBLIC.findall(source) + [it for trait in TRAIT.findall(source) for it in MEMBER_CALL.findall(trait)]
    clauses += [it for it in MEMBER.findall(source) if it[0] in MEMBERS]
    for item, text in clauses:
        for word in re.findall(r"(?<![\w.])[\w'-]+", text):
            if word in words:
                yield item, word, words[word]
        for alias, word in re.findall(r"(?<![\w.])(\w+)\.([\w'-]+)", text):
            if alias in modules:
                yield item, word, modules[alias]


def passed_on():
    """The modules that mysql_packets passes on, and its own."""
    text = (TOP / "crates/mysql_packets/specs/Lib.antt").read_text()
    own = {("mysql_packets", it) for it in re.findall(r"^pub mod (\w+)$", text, re.M)}
    return own | set(re.findall(r"^pub use Rattle\.(\w+)\.specs\.([\w.]+?)(?: as \w+)?$", text, re.M))


def words_without_paths(libraries):
    """Each module with a word that a public clause cites and that can't be named through mysql_packets. (Types are named by their paths.)"""
    known, missing = passed_on(), {}
    for path in (path for library in libraries for path in sorted((library / "src").rglob("*.rt"))):
        for item, word, module in cited(path.read_text()):
            if module not in known and not module[1].startswith("declared."):
                missing.setdefault(module, f"{module[0]}: a contract over {word} ({item}) can't be written: mysql_packets does not pass on specs.{module[1]}")
    return list(missing.values())


def count(libraries):
    """How many words the public clauses cite."""
    sources = (path.read_text() for library in libraries for path in (library / "src").rglob("*.rt"))
    return len({(word, module) for source in sources for _, word, module in cited(source)})
